//! Times the three readers on six captures of 48 KiB: medians of repeats that take turns in one
//! process.
use crate::captures::{data, mixed, SIZE};
use crate::message::{Sender, Tally};
use crate::readers::{
    engine_calls, engine_scan, simple_calls, simple_scan, tuned_calls, tuned_scan, Scan,
};
use std::hint::black_box;
use std::time::{Duration, Instant};

const REPEATS: usize = 401;

/// How long one repeat of the simple reader takes at least.
const REPEAT: Duration = Duration::from_micros(200);

/// The readers by name: a scan, and a call for each message.
pub const SCANS: [(&str, Scan); 6] = [
    ("simple", simple_scan),
    ("tuned", tuned_scan),
    ("engine", engine_scan),
    ("simple-calls", simple_calls),
    ("tuned-calls", tuned_calls),
    ("engine-calls", engine_calls),
];

/// The captures by name.
pub fn captures() -> Vec<(&'static str, Sender, Vec<u8>)> {
    let mut all = Vec::new();
    for from in [Sender::Client, Sender::Server] {
        all.push(("Data of 16 bytes", from, data(16, from)));
        all.push(("Data of 4,096 bytes", from, data(4_096, from)));
        all.push(("all types mixed", from, mixed(from)));
    }
    all.sort_by_key(|(name, _, _)| !name.starts_with("Data"));
    all
}

/// Runs a scan this often.
pub fn run(scan: Scan, capture: &[u8], from: Sender, often: u32) -> Duration {
    let begin = Instant::now();
    for _ in 0..often {
        black_box(scan(black_box(capture), black_box(from)));
    }
    begin.elapsed()
}

/// How often a repeat runs its scan.
fn often(capture: &[u8], from: Sender) -> u32 {
    let mut often = 1;
    while run(simple_scan, capture, from, often) < REPEAT {
        often *= 2;
    }
    often
}

/// The medians of the readers in nanoseconds for a message. The readers follow each other in the
/// same circle, and each repeat begins with another one.
fn medians(capture: &[u8], from: Sender, messages: u64) -> [f64; SCANS.len()] {
    let often = often(capture, from);
    let mut times: [Vec<Duration>; SCANS.len()] = Default::default();
    for repeat in 0..REPEATS {
        for turn in 0..SCANS.len() {
            let which = (repeat + turn) % SCANS.len();
            times[which].push(run(SCANS[which].1, capture, from, often));
        }
    }
    times.map(|mut times| {
        times.sort();
        times[REPEATS / 2].as_nanos() as f64 / f64::from(often) / messages as f64
    })
}

/// What a capture comes to, if all readers agree.
pub fn agreed(capture: &[u8], from: Sender) -> Result<Tally, String> {
    let tallies = SCANS.map(|(_, scan)| scan(capture, from));
    if capture.len() != SIZE
        || tallies
            .iter()
            .any(|tally| *tally != tallies[0] || tally.place != SIZE as u64)
    {
        return Err(format!(
            "the readers do not all read the capture of the {from:?} to its end: {tallies:?}"
        ));
    }
    Ok(tallies[0])
}

/// The times of three readers, and the ratios of the engine's to the others.
fn columns([simple, tuned, engine]: [f64; 3]) -> String {
    let (to_simple, to_tuned) = (engine / simple, engine / tuned);
    format!("{simple:>9.2}{tuned:>8.2}{engine:>8.2}{to_simple:>9.2}{to_tuned:>8.2}")
}

/// The table of times and ratios.
pub fn table() -> Result<String, String> {
    let heads = format!(
        "{:>9}{:>8}{:>8}{:>9}{:>8}",
        "simple", "tuned", "engine", "/simple", "/tuned"
    );
    let mut lines = vec![
        "Nanoseconds for a message, medians: a scan of the capture, and a call for each message."
            .into(),
        "Behind each the ratios of the engine's reader to the two of Rust.".into(),
        format!("{:<28}{:>8}{heads}{heads}", "capture", "messages"),
    ];
    for (name, from, capture) in captures() {
        let messages = agreed(&capture, from)?.messages;
        let [a, b, c, d, e, f] = medians(&capture, from, messages);
        let name = format!("{name}, {from:?}").to_lowercase();
        let (scans, calls) = (columns([a, b, c]), columns([d, e, f]));
        lines.push(format!("{name:<28}{messages:>8}{scans}{calls}"));
    }
    Ok(lines.join("\n"))
}
