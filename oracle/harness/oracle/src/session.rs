//! The session of one log: the Rust's answers as the program `walk` prints them.
//! The parser tells no start places and no trials; they follow from its texts for tracing and from the section.
use std::fmt::Write as _;

use blackbox_log::data::probe;
use blackbox_log::event::AdjustedValue;
use blackbox_log::frame::{Frame, FrameDef};
use blackbox_log::{Event, File, ParserEvent};
use tracing::Note;

use crate::lines::{case, split, Case, Options};

fn is_kind(byte: u8) -> bool {
    b"EIPGHS".contains(&byte)
}

fn search(section: &[u8], place: usize) -> usize {
    section[place..]
        .iter()
        .position(|b| b"EISGH".contains(b))
        .map_or(place, |n| place + n)
}

/// Where the trials were made. The parser doesn't tell, but the place of a
/// trial follows from the place of the one before it, and the kind the parser
/// says it tries must be the byte found there.
fn trial_place(section: &[u8], place: &mut usize, kind: u8) -> usize {
    loop {
        let at = *place;
        assert!(at < section.len(), "oracle: no byte left for trial {kind}");
        *place += 1;
        if is_kind(section[at]) {
            assert_eq!(section[at], kind, "oracle: wrong trial at {at}");
            return at;
        }
        *place = search(section, *place);
    }
}

fn push_value(out: &mut String, value: u32, signed: bool) {
    if signed {
        let _ = write!(out, " {}", value.cast_signed());
    } else {
        let _ = write!(out, " {value}");
    }
}

pub fn run(input: &[u8], options: Options, out: &mut String) {
    let (lines, section) = input.split_at(split(input));
    let Case {
        headers: mut text,
        slow_added,
    } = case(lines, options);
    if options.joined {
        text.extend_from_slice(section);
    }

    let headers = match File::new(&text).headers() {
        Ok(headers) => headers,
        Err(error) => {
            let _ = writeln!(out, "refused {error:?}");
            return;
        }
    };

    let main_signs: Vec<bool> = headers.main_frame_def().iter().map(|f| f.signed).collect();
    let slow_signs: Vec<bool> = headers.slow_frame_def().iter().map(|f| f.signed).collect();
    let gps_signs: Vec<bool> = headers
        .gps_frame_def()
        .map(|def| def.iter().map(|f| f.signed).collect())
        .unwrap_or_default();

    out.push_str("kind at values\n");

    let mut notes = Vec::new();
    tracing::take(&mut notes);
    let (mut tried, mut rejected, mut cut) = (0, 0, false);
    let (mut main, mut event, mut slow, mut gps) = (0, 0, 0, 0);
    let mut parser = if options.joined {
        headers.data_parser()
    } else {
        probe::parser(section, &headers)
    };

    loop {
        let mut place = probe::position(&parser);
        let mut start = place;
        let mut kind = 0;
        let mut body = String::new();

        let some = match parser.next() {
            None => false,
            Some(ParserEvent::Main(frame)) => {
                main += 1;
                let mut values = frame.iter_raw().zip(&main_signs);
                // `MainFrame::get` makes iteration unsigned whatever its sign item
                let (iteration, _) = values.next().unwrap();
                let _ = write!(body, " {iteration} {}", frame.time_raw());
                for (value, &signed) in values {
                    push_value(&mut body, value, signed);
                }
                true
            }
            Some(ParserEvent::Slow(frame)) => {
                slow += 1;
                for (value, &signed) in frame.iter_raw().zip(&slow_signs) {
                    push_value(&mut body, value, signed);
                }
                true
            }
            Some(ParserEvent::Gps(frame)) => {
                gps += 1;
                let _ = write!(body, " {}", frame.time_raw());
                for (value, &signed) in frame.iter_raw().zip(&gps_signs) {
                    push_value(&mut body, value, signed);
                }
                true
            }
            Some(ParserEvent::Event(e)) => {
                event += 1;
                let _ = match e {
                    Event::SyncBeep(time) => write!(body, " 0 {time}"),
                    Event::InflightAdjustment {
                        function,
                        new_value: AdjustedValue::Int(value),
                    } => write!(body, " 13 {function} {value}"),
                    Event::InflightAdjustment {
                        function,
                        new_value: AdjustedValue::Float(value),
                    } => write!(body, " 13 {function} float={:08x}", value.to_bits()),
                    Event::Resume {
                        log_iteration,
                        time,
                    } => write!(body, " 14 {log_iteration} {time}"),
                    Event::Disarm(reason) => write!(body, " 15 {reason}"),
                    Event::FlightMode { flags, last_flags } => {
                        write!(body, " 30 {flags} {last_flags}")
                    }
                    Event::ImuFailure { error } => write!(body, " 40 {error}"),
                    Event::End {
                        disarm_reason: None,
                    } => write!(body, " 255"),
                    Event::End {
                        disarm_reason: Some(reason),
                    } => write!(body, " 255 reason={reason}"),
                };
                true
            }
        };

        tracing::take(&mut notes);
        let mut open = false;
        for note in &notes {
            match *note {
                Note::Try(k) => {
                    // A GPS home frame is taken without a word.
                    rejected += usize::from(open && options.home);
                    open = true;
                    tried += 1;
                    kind = k;
                    if options.places() {
                        start = trial_place(section, &mut place, k);
                    }
                }
                Note::Rejected => {
                    open = false;
                    rejected += 1;
                    if options.places() {
                        place = search(section, start + 1);
                    }
                }
                Note::Cut => {
                    open = false;
                    cut = true;
                }
            }
        }
        if open && !some {
            rejected += usize::from(options.home);
        }

        if !some {
            break;
        }

        if slow_added && kind == b'S' {
            // There is no slow definition: make the trial corrupt at once.
            slow -= 1;
            rejected += 1;
            probe::search(&mut parser);
            continue;
        }

        let kind = char::from(kind);
        let _ = if options.walk && options.places() {
            writeln!(out, "{kind} {start}{body}")
        } else {
            writeln!(out, "{kind} end={}{body}", probe::position(&parser))
        };
    }

    let end = match (parser.is_done(), options.walk) {
        (true, _) => "done",
        (false, false) => "none",
        (false, true) if cut => "cut",
        (false, true) => "out of data",
    };
    let _ = write!(out, "end {end} main {main} event {event} slow {slow}");
    if options.gps || options.all {
        let _ = write!(out, " gps {gps}");
    }
    if options.walk {
        let _ = write!(out, " tried {tried} rejected {rejected}");
    }
    out.push('\n');
}
