//! A deduplicator of logs: `log SEEN < LOG` prints each line whose message is new.
//!
//! A line is a time, a blank, and a message. The messages are kept in the file SEEN, so a later run
//! prints only what no earlier one saw. One new message in a million may be left out.

use fastbloom_c::{BloomFilter, Error, Rate};
use std::io::{self, BufRead, BufWriter, ErrorKind, Write};
use std::{env, process};

/// The filter of a file, or an empty one where there is no file.
fn load(path: &str) -> Result<BloomFilter, Error> {
    match BloomFilter::load(path) {
        Err(Error::Input(why)) if why.kind() == ErrorKind::NotFound => {
            BloomFilter::with_false_pos("1/1000000".parse::<Rate>()?).expected_items(1_000_000)
        }
        loaded => loaded,
    }
}

/// What follows the first blank, or the whole line.
fn message(line: &[u8]) -> &[u8] {
    let blank = line.iter().position(|byte| *byte == b' ');
    blank.map_or(line, |place| &line[place + 1..])
}

/// Copies the lines whose messages are new.
fn copy_new(seen: &mut BloomFilter, mut input: impl BufRead, output: impl Write) -> io::Result<()> {
    let mut output = BufWriter::new(output);
    let mut line = Vec::new();
    while input.read_until(b'\n', &mut line)? > 0 {
        let text = line.strip_suffix(b"\n").unwrap_or(&line);
        if !seen.insert(message(text)) {
            output.write_all(&line)?;
        }
        line.clear();
    }
    output.flush()
}

fn run() -> Result<(), Box<dyn std::error::Error>> {
    let path = env::args().nth(1).ok_or("usage: log SEEN < LOG")?;
    let mut seen = load(&path)?;
    copy_new(&mut seen, io::stdin().lock(), io::stdout().lock())?;
    // Only once all lines are written: what isn't printed isn't kept.
    seen.save(&path)?;
    Ok(())
}

fn main() {
    if let Err(why) = run() {
        eprintln!("log: {why}");
        process::exit(1);
    }
}
