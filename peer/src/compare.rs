//! Compares another program with this one on the scripts of many seeds.

use crate::cover::Cover;
use crate::make;
use crate::play;
use crate::runner::{Printed, Program};
use crate::shrink;
use std::io::{self, Write};
use std::ops::Range;
use std::time::{Duration, Instant};

/// What to compare, and how far.
pub struct Settings {
    pub program: Program,
    pub seeds: Range<u64>,
    pub calls: u64,
    /// The run stops after this many scripts that differ.
    pub differences: u64,
    pub full: bool,
}

/// The first line in which two outputs differ; nothing where an output has ended.
#[derive(Debug, PartialEq, Eq)]
pub struct Difference {
    pub line: usize,
    pub ours: Option<Vec<u8>>,
    pub theirs: Option<Vec<u8>>,
}

/// How often a progress line is written.
const PROGRESS: Duration = Duration::from_secs(2);

/// Finds the first line in which two outputs differ, byte for byte.
pub fn first_difference(ours: &[u8], theirs: &[u8]) -> Option<Difference> {
    if ours == theirs {
        return None;
    }
    let mut ours = ours.split_inclusive(|&byte| byte == b'\n');
    let mut theirs = theirs.split_inclusive(|&byte| byte == b'\n');
    let mut line = 1;
    loop {
        let pair = (ours.next(), theirs.next());
        if pair.0 != pair.1 {
            return Some(Difference {
                line,
                ours: pair.0.map(<[u8]>::to_vec),
                theirs: pair.1.map(<[u8]>::to_vec),
            });
        }
        line += 1;
    }
}

/// Two programs that play the same scripts: another one, and this one by a function.
pub struct Pair<'a> {
    pub program: &'a Program,
    pub play: fn(&[u8]) -> Vec<u8>,
}

/// Writes a line on standard error now and then.
pub struct Progress {
    last: Instant,
}

impl Progress {
    /// Begins to wait for the first line.
    pub fn begin() -> Progress {
        Progress {
            last: Instant::now(),
        }
    }

    /// Writes the line if one is due.
    pub fn tell(&mut self, line: impl FnOnce() -> String) {
        if self.last.elapsed() >= PROGRESS {
            self.last = Instant::now();
            eprintln!("{}", line());
        }
    }
}

/// Compares all seeds; gives true if no script differed.
pub fn compare<W: Write>(settings: &Settings, out: &mut W) -> Result<bool, String> {
    let mut cover = Cover::default();
    let mut differing = 0;
    let mut progress = Progress::begin();
    let begun = Instant::now();
    let pair = Pair {
        program: &settings.program,
        play: |script| play::play_bytes(script, None),
    };
    for seed in settings.seeds.clone() {
        let script = make::make(seed, settings.calls);
        let ours = play::play_bytes(&script, Some(&mut cover));
        cover.scripts += 1;
        let theirs = settings.program.run(&script)?;
        if theirs.fault.is_some() || theirs.text != ours {
            differing += 1;
            let title = format!("Seed {seed}");
            pair.show(&title, &script, &ours, &theirs, out)?;
        }
        if differing >= settings.differences {
            break;
        }
        progress.tell(|| {
            let (end, calls) = (settings.seeds.end, cover.calls);
            format!("seed {seed} of those below {end}: {calls} calls, {differing} scripts differ")
        });
    }
    summary(settings, &cover, differing, begun.elapsed(), out).map_err(told)?;
    Ok(differing == 0)
}

/// Gives an error of output in plain words.
pub fn told(error: io::Error) -> String {
    format!("cannot write the report: {error}")
}

impl Pair<'_> {
    /// Tells whether the program's output on a script differs from ours, or the program fails.
    fn differs(&self, script: &[u8]) -> bool {
        let ours = (self.play)(script);
        match self.program.run(script) {
            Ok(theirs) => theirs.fault.is_some() || theirs.text != ours,
            Err(_) => false,
        }
    }

    /// Prints a script that differs, shrunk, with the first differing line of both outputs.
    pub fn show<W: Write>(
        &self,
        title: &str,
        script: &[u8],
        ours: &[u8],
        theirs: &Printed,
        out: &mut W,
    ) -> Result<(), String> {
        show_whole(title, ours, theirs, out).map_err(told)?;
        eprintln!("{title}: shrinking");
        let short = shrink::shrink(script, &mut |script| self.differs(script));
        self.show_short(&short, out).map_err(told)
    }

    /// Prints the shrunk script and what both programs print for it.
    fn show_short<W: Write>(&self, short: &[u8], out: &mut W) -> io::Result<()> {
        let count = short.split(|&byte| byte == b'\n').count() - 1;
        writeln!(out, "Shrunk to {count} lines:")?;
        writeln!(out, "---- script")?;
        out.write_all(short)?;
        writeln!(out, "---- end of script")?;
        let ours = (self.play)(short);
        match self.program.run(short) {
            Ok(theirs) => show_first(&ours, &theirs, "First differing line of the output:", out)?,
            Err(error) => writeln!(out, "{error}")?,
        }
        writeln!(out)
    }
}

/// Prints how the outputs of a whole script differ.
fn show_whole<W: Write>(title: &str, ours: &[u8], theirs: &Printed, out: &mut W) -> io::Result<()> {
    writeln!(out, "{title}: the outputs differ.")?;
    show_first(ours, theirs, "In the whole script, at line", out)
}

/// Prints how the program failed, and the first differing line under a heading.
fn show_first<W: Write>(
    ours: &[u8],
    theirs: &Printed,
    heading: &str,
    out: &mut W,
) -> io::Result<()> {
    if let Some(fault) = &theirs.fault {
        writeln!(out, "The program did not end well: {fault}.")?;
    }
    if let Some(difference) = first_difference(ours, &theirs.text) {
        writeln!(out, "{heading} {}", difference.line)?;
        show_lines(&difference, out)?;
    }
    Ok(())
}

/// Prints the two forms of a line.
fn show_lines<W: Write>(difference: &Difference, out: &mut W) -> io::Result<()> {
    for (name, line) in [
        ("peer:    ", &difference.ours),
        ("program: ", &difference.theirs),
    ] {
        out.write_all(name.as_bytes())?;
        match line {
            None => writeln!(out, "(the output has ended)")?,
            Some(line) => {
                out.write_all(line)?;
                if line.last() != Some(&b'\n') {
                    writeln!(out, " (no 0A at the end)")?;
                }
            }
        }
    }
    Ok(())
}

/// Prints the coverage report and the plain summary.
fn summary<W: Write>(
    settings: &Settings,
    cover: &Cover,
    differing: u64,
    time: Duration,
    out: &mut W,
) -> io::Result<()> {
    writeln!(out, "{}", cover.report(settings.full))?;
    writeln!(
        out,
        "Compared {} seeds of {}..{}, {} calls and {} state and queue lines, in {:.1} s.",
        cover.scripts,
        settings.seeds.start,
        settings.seeds.end,
        cover.calls,
        cover.looks,
        time.as_secs_f64()
    )?;
    writeln!(out, "{}", result(differing))
}

/// Gives the last line of a report.
pub fn result(differing: u64) -> String {
    match differing {
        0 => "Result: no difference.".to_string(),
        1 => "Result: 1 script differs.".to_string(),
        count => format!("Result: {count} scripts differ."),
    }
}

/// Plays the scripts of all seeds and counts what they reach.
pub fn cover(seeds: Range<u64>, calls: u64) -> Cover {
    let mut cover = Cover::default();
    for seed in seeds {
        play::play_bytes(&make::make(seed, calls), Some(&mut cover));
        cover.scripts += 1;
    }
    cover
}

#[cfg(test)]
mod tests {
    use super::*;

    #[test]
    fn equal_outputs_do_not_differ() {
        assert_eq!(first_difference(b"a\nb\n", b"a\nb\n"), None);
    }

    #[test]
    fn the_first_differing_line_is_found() {
        let difference = first_difference(b"a\nb\nc\n", b"a\nx\nc\n").unwrap();
        assert_eq!(difference.line, 2);
        assert_eq!(difference.ours.as_deref(), Some(&b"b\n"[..]));
        assert_eq!(difference.theirs.as_deref(), Some(&b"x\n"[..]));
    }

    #[test]
    fn an_output_that_ends_early_differs() {
        let difference = first_difference(b"a\nb\n", b"a\n").unwrap();
        assert_eq!((difference.line, difference.theirs), (2, None));
        let cut = first_difference(b"a\n", b"a").unwrap();
        assert_eq!(cut.line, 1);
    }
}
