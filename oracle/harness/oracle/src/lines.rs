//! The header text that the Rust is given for a log: the lines it may see, and those added to every one.
//! See oracle/README.md for what is added and why.

const START: &str = "\
H Product:Blackbox flight data recorder by Nicholas Sherlock
H Data version:2
H Firmware revision:Betaflight 4.5.0 (oracle) STM32F405
H motor_pwm_protocol:6
";
const ACC: &str = "H acc_1G:2048\n";
/// Reads no bytes.
const SLOW: &str = "\
H Field S name:none
H Field S signed:0
H Field S predictor:0
H Field S encoding:9
";
/// Reads no bytes.
const HOME: &str = "\
H Field H name:GPS_home[0],GPS_home[1]
H Field H signed:1,1
H Field H predictor:0,0
H Field H encoding:9,9
";

#[derive(Debug, Default, Clone, Copy)]
pub struct Options {
    /// Print `walk`'s own format: start places, trial counts, `cut`.
    pub walk: bool,
    /// Add neither a slow definition nor acc_1G where the input has none.
    pub bare: bool,
    /// Give the parser headers and section in one piece, as a log has them.
    pub joined: bool,
    /// Add a GPS home definition, so that predictor 7 is not refused.
    pub home: bool,
    /// Pass the lines of GPS and GPS home definitions.
    pub gps: bool,
    /// Pass every H line.
    pub all: bool,
}

impl Options {
    /// Start places are known: the parser starts at the section's start and
    /// passes over no GPS home frames in silence.
    pub fn places(self) -> bool {
        !self.gps && !self.all && !self.joined
    }
}

pub struct Case {
    pub headers: Vec<u8>,
    /// The slow definition is `SLOW`.
    pub slow_added: bool,
}

/// Length of the lines beginning `H ` at the start.
pub fn split(input: &[u8]) -> usize {
    let mut at = 0;
    while input[at..].starts_with(b"H ") {
        match input[at..].iter().position(|&b| b == b'\n') {
            Some(len) => at += len + 1,
            None => return input.len(),
        }
    }
    at
}

pub fn case(lines: &[u8], options: Options) -> Case {
    let mut kept = Vec::new();
    let (mut has_slow, mut has_acc) = (false, false);

    for line in lines.split_inclusive(|&b| b == b'\n') {
        let rest = &line[2..];
        let name = match rest.iter().position(|&b| b == b':') {
            Some(len) => &rest[..len],
            None => b"",
        };

        let mut keep = options.all;
        match name {
            b"minthrottle" | b"vbatref" | b"motorOutput" => keep = true,
            b"acc_1G" => {
                keep = true;
                has_acc = true;
            }
            [b'F', b'i', b'e', b'l', b'd', b' ', kind, b' ', property @ ..] => {
                if matches!(property, b"name" | b"signed" | b"predictor" | b"encoding") {
                    match kind {
                        b'I' | b'P' => keep = true,
                        b'S' => {
                            keep = true;
                            has_slow = true;
                        }
                        b'G' | b'H' => keep |= options.gps,
                        _ => {}
                    }
                }
            }
            _ => {}
        }

        if keep {
            kept.extend_from_slice(line);
            if !line.ends_with(b"\n") {
                kept.push(b'\n');
            }
        }
    }

    let mut headers = Vec::with_capacity(kept.len() + 512);
    headers.extend_from_slice(START.as_bytes());
    if !has_acc && !options.bare {
        headers.extend_from_slice(ACC.as_bytes());
    }
    let slow_added = !has_slow && !options.bare;
    if slow_added {
        headers.extend_from_slice(SLOW.as_bytes());
    }
    if options.home {
        headers.extend_from_slice(HOME.as_bytes());
    }
    headers.extend_from_slice(&kept);

    Case {
        headers,
        slow_added,
    }
}
