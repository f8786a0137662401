//! CRC-32C in plain Rust, by a table of 256 entries and a byte at a time; held against the
//! engine's, and timed beside it.
use crate::captures::{Numbers, SIZE};
use crate::engine;
use std::hint::black_box;
use std::time::{Duration, Instant};

/// How many bytes the slices have that are timed.
const LENGTHS: [usize; 3] = [16, 507, SIZE];

const REPEATS: usize = 401;

/// How long one repeat takes at least.
const REPEAT: Duration = Duration::from_micros(200);

/// How many random slices the long comparison takes.
const SLICES: usize = 1_000_000;

const TABLE: [u32; 256] = table();

const fn table() -> [u32; 256] {
    let mut table = [0; 256];
    let mut byte = 0;
    while byte < 256 {
        table[byte] = after_eight_bits(byte as u32);
        byte += 1;
    }
    table
}

const fn after_eight_bits(mut state: u32) -> u32 {
    let mut bit = 0;
    while bit < 8 {
        state = (state >> 1) ^ (0x82f6_3b78 * (state & 1));
        bit += 1;
    }
    state
}

#[inline(never)]
fn rust(bytes: &[u8]) -> u32 {
    let mut state = u32::MAX;
    for byte in bytes {
        state = TABLE[usize::from(state as u8 ^ byte)] ^ (state >> 8);
    }
    !state
}

#[inline(never)]
fn engine(bytes: &[u8]) -> u32 {
    engine::crc32c(bytes)
}

/// The two by turns: what is timed.
const BOTH: [fn(&[u8]) -> u32; 2] = [rust, engine];

fn random(numbers: &mut Numbers, length: usize) -> Vec<u8> {
    (0..length).map(|_| numbers.below(256) as u8).collect()
}

fn alike(bytes: &[u8]) -> Result<(), String> {
    let (rust, engine) = (rust(bytes), engine(bytes));
    if rust == engine {
        return Ok(());
    }
    Err(format!(
        "{bytes:02x?}: the engine's CRC is {engine:08x}, that of Rust {rust:08x}"
    ))
}

/// Compares the two on random slices, each length from 0 to 600 in turn, and on a few long ones.
pub fn compare(slices: usize) -> Result<String, String> {
    let mut numbers = Numbers::new(14);
    for number in 0..slices {
        alike(&random(&mut numbers, number % 601))?;
    }
    for length in [4_095, SIZE, 1_000_003] {
        alike(&random(&mut numbers, length))?;
    }
    Ok(format!(
        "CRC-32C: {slices} random slices of 0 to 600 bytes and 3 long ones alike"
    ))
}

fn run(crc: fn(&[u8]) -> u32, bytes: &[u8], often: u32) -> Duration {
    let begin = Instant::now();
    for _ in 0..often {
        black_box(crc(black_box(bytes)));
    }
    begin.elapsed()
}

/// The medians of Rust and of the engine in nanoseconds for a slice. The one that goes first
/// changes with each repeat.
fn medians(bytes: &[u8]) -> [f64; 2] {
    let mut often = 1;
    while run(rust, bytes, often) < REPEAT {
        often *= 2;
    }
    let mut times: [Vec<Duration>; 2] = Default::default();
    for repeat in 0..REPEATS {
        for turn in 0..2 {
            let which = (repeat + turn) % 2;
            times[which].push(run(BOTH[which], bytes, often));
        }
    }
    times.map(|mut times| {
        times.sort();
        times[REPEATS / 2].as_nanos() as f64 / f64::from(often)
    })
}

/// The long comparison, then a table of times and ratios.
pub fn table_of_times() -> Result<String, String> {
    let mut lines = vec![
        compare(SLICES)?,
        format!("Nanoseconds for a slice, medians of {REPEATS} repeats that take turns."),
        format!("{:>8}{:>12}{:>12}{:>8}", "bytes", "rust", "engine", "/rust"),
    ];
    for length in LENGTHS {
        let [rust, engine] = medians(&random(&mut Numbers::new(15), length));
        let ratio = engine / rust;
        lines.push(format!("{length:>8}{rust:>12.1}{engine:>12.1}{ratio:>8.2}"));
    }
    Ok(lines.join("\n"))
}
