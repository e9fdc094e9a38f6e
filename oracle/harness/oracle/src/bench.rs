//! CPU time of the Rust over one section, for comparing speeds.
//! Go by the `cpu` lines: what the machine's other work takes is left out of them.
use std::hint::black_box;
use std::time::Instant;

use blackbox_log::data::probe;
use blackbox_log::frame::Frame;
use blackbox_log::{File, ParserEvent};

use crate::lines::{case, split, Options};

/// CPU time of this thread in ns.
fn cpu() -> u64 {
    #[repr(C)]
    struct Timespec {
        seconds: i64,
        nanos: i64,
    }
    extern "C" {
        fn clock_gettime(clock: i32, time: *mut Timespec) -> i32;
    }
    const CLOCK_THREAD_CPUTIME_ID: i32 = 3; // Linux

    let mut time = Timespec {
        seconds: 0,
        nanos: 0,
    };
    let code = unsafe { clock_gettime(CLOCK_THREAD_CPUTIME_ID, &mut time) };
    assert_eq!(code, 0);
    time.seconds as u64 * 1_000_000_000 + time.nanos as u64
}

pub fn bench(input: &[u8], options: Options, rounds: u64) {
    let (lines, section) = input.split_at(split(input));
    let text = case(lines, options).headers;
    let headers = match File::new(&text).headers() {
        Ok(headers) => headers,
        Err(error) => {
            println!("refused {error:?}");
            return;
        }
    };

    let (mut frames, mut values, mut sum) = (0_u64, 0_u64, 0_u64);
    let mut best = u64::MAX;
    let begin = Instant::now();
    let begin_cpu = cpu();
    for _ in 0..rounds {
        let round = cpu();
        let mut parser = probe::parser(black_box(section), &headers);
        while let Some(item) = parser.next() {
            frames += 1;
            match item {
                ParserEvent::Main(frame) => {
                    sum = sum.wrapping_add(frame.time_raw());
                    for value in frame.iter_raw() {
                        values += 1;
                        sum = sum.wrapping_add(value.into());
                    }
                }
                ParserEvent::Slow(frame) => {
                    for value in frame.iter_raw() {
                        values += 1;
                        sum = sum.wrapping_add(value.into());
                    }
                }
                ParserEvent::Gps(frame) => {
                    for value in frame.iter_raw() {
                        values += 1;
                        sum = sum.wrapping_add(value.into());
                    }
                }
                ParserEvent::Event(event) => {
                    black_box(&event);
                }
            }
        }
        black_box(sum);
        best = best.min(cpu() - round);
    }
    let total_cpu = cpu() - begin_cpu;
    let total = begin.elapsed().as_nanos() as u64;

    let per_round = frames / rounds;
    let bytes = section.len() as f64;
    println!("rounds {rounds} section {} bytes frames {per_round} values {}", section.len(), values / rounds);
    let line = |name: &str, ns: u64, rounds: u64| {
        println!(
            "{name} {ns} ns, {:.1} ns/frame, {:.1} MB/s",
            ns as f64 / (per_round * rounds) as f64,
            bytes * rounds as f64 * 1000. / ns as f64
        );
    };
    line("total", total, rounds);
    line("cpu", total_cpu, rounds);
    line("best round, cpu", best, 1);
    println!("sum {sum}");
}
