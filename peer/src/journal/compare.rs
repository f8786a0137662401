//! Compares another program with this one on the journals' scripts of many seeds, and at every cut.

use super::cover::Cover;
use super::{cuts, make, play};
use crate::compare::{result, told, Pair, Progress};
use crate::runner::Program;
use std::io::{self, Write};
use std::ops::Range;
use std::time::{Duration, Instant};

/// From this many seeds on, the scripts are asked to reach all that scripts can.
pub const ENOUGH_SEEDS: u64 = 1_024;

/// What to compare, and how far.
pub struct Settings {
    pub program: Program,
    /// The seeds of random scripts; none where it is empty.
    pub seeds: Range<u64>,
    /// Whether the histories of `cuts` are compared, too.
    pub cuts: bool,
    /// The run stops after this many scripts that differ.
    pub differences: u64,
}

impl Settings {
    /// Gives all scripts, each with a title.
    fn scripts(&self) -> impl Iterator<Item = (String, Vec<u8>)> {
        let seeds = self.seeds.clone();
        let random = seeds.map(|seed| (format!("Seed {seed}"), make::make(seed)));
        let cuts = self.cuts.then(cuts::all);
        random.chain(cuts.into_iter().flatten())
    }

    /// Tells whether there are enough seeds to ask what they do not reach.
    fn enough(&self) -> bool {
        self.seeds.end - self.seeds.start >= ENOUGH_SEEDS
    }
}

/// Compares all scripts; gives true if none differed and enough seeds reached all that scripts can.
pub fn compare<W: Write>(settings: &Settings, out: &mut W) -> Result<bool, String> {
    let mut cover = Cover::default();
    let mut differing = 0;
    let mut progress = Progress::begin();
    let begun = Instant::now();
    let pair = Pair {
        program: &settings.program,
        play: |script| play::play_bytes(script, None),
    };
    for (title, script) in settings.scripts() {
        let ours = play::play_bytes(&script, Some(&mut cover));
        cover.scripts += 1;
        let theirs = settings.program.run(&script)?;
        if theirs.fault.is_some() || theirs.text != ours {
            differing += 1;
            pair.show(&title, &script, &ours, &theirs, out)?;
        }
        if differing >= settings.differences {
            break;
        }
        progress.tell(|| {
            let calls = cover.calls;
            format!("{title}: {calls} calls, {differing} scripts differ")
        });
    }
    summary(&cover, differing, begun.elapsed(), out).map_err(told)?;
    let lacking = settings.enough() && !cover.missing().is_empty();
    Ok(differing == 0 && !lacking)
}

/// Prints the coverage report and the plain summary.
fn summary<W: Write>(cover: &Cover, differing: u64, time: Duration, out: &mut W) -> io::Result<()> {
    writeln!(out, "{}", cover.report())?;
    writeln!(
        out,
        "Compared {} scripts, {} calls and {} damage and block lines, in {:.1} s.",
        cover.scripts,
        cover.calls,
        cover.looks,
        time.as_secs_f64()
    )?;
    writeln!(out, "{}", result(differing))
}

/// Plays the scripts of all seeds and counts what they reach.
pub fn cover(seeds: Range<u64>) -> Cover {
    let mut cover = Cover::default();
    for seed in seeds {
        play::play_bytes(&make::make(seed), Some(&mut cover));
        cover.scripts += 1;
    }
    cover
}
