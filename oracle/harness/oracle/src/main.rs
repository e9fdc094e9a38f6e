//! Runs the Rust parser on the input of document 01's program `walk`.
//! See oracle/README.md for the options and the formats.
mod bench;
mod lines;
mod session;

use std::io::{self, BufRead, BufReader, BufWriter, Read, Write};
use std::panic;
use std::sync::atomic::Ordering;

use lines::Options;

fn guarded(input: &[u8], options: Options) -> String {
    match panic::catch_unwind(|| {
        let mut out = String::new();
        session::run(input, options, &mut out);
        out
    }) {
        Ok(out) => out,
        Err(error) => {
            let text = error
                .downcast_ref::<String>()
                .map(String::as_str)
                .or_else(|| error.downcast_ref::<&str>().copied())
                .unwrap_or("?");
            format!("panic {}\n", text.replace('\n', " "))
        }
    }
}

fn batch(options: Options) -> io::Result<()> {
    let mut stdin = BufReader::with_capacity(1 << 16, io::stdin().lock());
    let mut stdout = BufWriter::with_capacity(1 << 16, io::stdout().lock());
    let mut input = Vec::new();

    while !stdin.fill_buf()?.is_empty() {
        let mut len = [0; 4];
        stdin.read_exact(&mut len)?;
        input.resize(u32::from_le_bytes(len) as usize, 0);
        stdin.read_exact(&mut input)?;

        stdout.write_all(guarded(&input, options).as_bytes())?;
        stdout.write_all(b"--\n")?;
        if stdin.buffer().is_empty() {
            stdout.flush()?;
        }
    }

    stdout.flush()
}

fn usage() -> ! {
    eprintln!("usage: oracle [--walk] [--bare] [--joined] [--home] [--gps] [--all] [--batch | --bench N | --headers] < case");
    std::process::exit(2);
}

fn main() -> io::Result<()> {
    let mut options = Options::default();
    let (mut batched, mut rounds, mut show) = (false, None, false);
    let mut args = std::env::args().skip(1);
    while let Some(arg) = args.next() {
        match arg.as_str() {
            "--walk" => options.walk = true,
            "--bare" => options.bare = true,
            "--joined" => options.joined = true,
            "--home" => options.home = true,
            "--gps" => options.gps = true,
            "--all" => options.all = true,
            "--batch" => batched = true,
            "--headers" => show = true,
            "--bench" => match args.next().and_then(|n| n.parse::<u64>().ok()) {
                Some(n) if n > 0 => rounds = Some(n),
                _ => usage(),
            },
            _ => usage(),
        }
    }

    panic::set_hook(Box::new(|_| {}));

    if batched {
        tracing::ON.store(true, Ordering::Relaxed);
        return batch(options);
    }

    let mut input = Vec::new();
    io::stdin().read_to_end(&mut input)?;
    if let Some(rounds) = rounds {
        bench::bench(&input, options, rounds);
    } else if show {
        let header = &input[..lines::split(&input)];
        io::stdout().write_all(&lines::case(header, options).headers)?;
    } else {
        tracing::ON.store(true, Ordering::Relaxed);
        print!("{}", guarded(&input, options));
    }
    Ok(())
}
