//! Reads captures with the engine's reader and with two of Rust, compares what they find, and times
//! them; the same for CRC-32C.
mod captures;
mod compare;
mod crc;
mod engine;
mod message;
mod readers;
mod simple;
mod times;
mod tuned;
mod words;

use std::process::ExitCode;

const USAGE: &str = "\
usage: speed compare                   the readers find the same, message by message; so do the CRCs
       speed time                      a table of times and ratios of the readers
       speed crc                       a longer comparison of the CRCs, and their times and ratios
       speed captures                  the names of the captures, a line each, with their messages
       speed run READER CAPTURE TIMES  one reader over one capture, by its line from 0, this often";

/// How many random slices the CRCs are compared on beside the readers.
const SLICES: usize = 20_000;

fn compare() -> Result<String, String> {
    Ok(format!("{}\n{}", compare::all()?, crc::compare(SLICES)?))
}

fn captures() -> Result<String, String> {
    let mut lines = Vec::new();
    for (name, from, capture) in times::captures() {
        let messages = times::agreed(&capture, from)?.messages;
        lines.push(format!("{messages} {name}, {from:?}").to_lowercase());
    }
    Ok(lines.join("\n"))
}

fn run(reader: &str, capture: &str, often: &str) -> Result<String, String> {
    let scan = times::SCANS.iter().find(|(name, _)| *name == reader);
    let (Some((_, scan)), Ok(capture), Ok(often)) = (scan, capture.parse::<usize>(), often.parse())
    else {
        return Err(USAGE.to_string());
    };
    let captures = times::captures();
    let (_, from, bytes) = captures.get(capture).ok_or(USAGE)?;
    times::run(*scan, bytes, *from, often);
    Ok(String::new())
}

fn main() -> ExitCode {
    let words: Vec<String> = std::env::args().skip(1).collect();
    let words: Vec<&str> = words.iter().map(String::as_str).collect();
    let told = match words[..] {
        ["compare"] => compare(),
        ["time"] => times::table(),
        ["crc"] => crc::table_of_times(),
        ["captures"] => captures(),
        ["run", reader, capture, often] => run(reader, capture, often),
        _ => Err(USAGE.to_string()),
    };
    match told {
        Ok(text) => println!("{text}"),
        Err(why) => {
            eprintln!("speed: {why}");
            return ExitCode::FAILURE;
        }
    }
    ExitCode::SUCCESS
}
