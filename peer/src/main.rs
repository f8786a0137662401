//! The command line of `peer`.

use peer::compare::{self, Settings};
use peer::journal::{self, cuts};
use peer::make;
use peer::play;
use peer::runner::Program;
use std::io::{self, BufReader, Write};
use std::ops::{Range, RangeInclusive};
use std::process::ExitCode;
use std::time::Duration;

const HELP: &str = "\
peer: an independent second implementation of one end of the Jmux protocol

peer play < SCRIPT
    Plays the script on standard input and prints one line for each call, as docs/SCRIPTS.md says.
    A line that is no call ends the run with `script error at line N`; the exit status is 0.

peer make --seed N [--calls M]
    Prints the random script of seed N, of about M calls at most (200 if left out). The same N
    and M always give the same script. Seeds that leave 78 when divided by 2048 print a long
    script of some 32,500 grants, whatever M is.

peer compare --program PATH --seeds A..B [--calls M] [--differences K] [--timeout S] [--full]
    Runs the program at PATH on the scripts of the seeds from A up to, but not including, B, and
    compares its lines with those of peer. On a difference it shrinks the script and prints it
    with the first differing line of both. Stops after K scripts that differ (1 if left out). A
    script on which the program needs more than S seconds (30 if left out) counts as differing.
    Prints the coverage and a summary at the end. Exit status 1 on a difference, else 0.

peer cover [--seeds A..B] [--calls M] [--full]
    Plays the scripts of the seeds (1..1025 if left out) on peer alone and prints what they reach;
    --full adds each call and message at each pair of sides. Exit status 1 if something that a
    script can reach was not reached.

peer journal < SCRIPT
    Plays the journal's script on standard input and prints one line for each call. A line that is
    no call ends the run with `script error at line N`; the exit status is 0.

peer journal-make --seed N
    Prints the random journal's script of seed N. The same N always gives the same script.

peer journal-cuts [--cut J] [--history H]
    Prints short histories whose last store or repair is cut after J byte stores, 0 to 512, or
    after each of these numbers if J is left out; history H alone, or all of them one by one. Each
    begins with a line that says what it is.

peer journal-compare --program PATH [--seeds A..B] [--cuts] [--differences K] [--timeout S]
    Runs the program at PATH on the journal's scripts of the seeds, with --cuts on all histories
    of journal-cuts, and compares its lines with those of peer, as compare does. Exit status 1 on
    a difference, or if 1,024 seeds or more do not reach all that a script can reach; else 0.

peer --help
    Prints this.

A..=B stands for the seeds from A to B, both included. The exit status is 2 for wrong arguments.
";

const COMMANDS: &str = "\
play, make, compare, cover, journal, journal-make, journal-cuts and journal-compare";

/// The seeds of `cover` where the command names none.
const USUAL_SEEDS: Range<u64> = 1..1025;

const USUAL_TIMEOUT: u64 = 30;

fn main() -> ExitCode {
    let arguments: Vec<String> = std::env::args_os()
        .skip(1)
        .map(|argument| argument.to_string_lossy().into_owned())
        .collect();
    match run(&arguments) {
        Ok(true) => ExitCode::SUCCESS,
        Ok(false) => ExitCode::from(1),
        Err(message) => {
            eprintln!("peer: {message}");
            eprintln!("`peer --help` tells what it can do.");
            ExitCode::from(2)
        }
    }
}

/// Runs the command that the arguments name; tells whether all went well.
fn run(arguments: &[String]) -> Result<bool, String> {
    let Some((command, rest)) = arguments.split_first() else {
        return Err(format!("no command; it is one of {COMMANDS}"));
    };
    let help = |word: &String| matches!(word.as_str(), "--help" | "-h" | "help");
    if help(command) || rest.iter().any(|word| word == "--help" || word == "-h") {
        return print(HELP.as_bytes());
    }
    match command.as_str() {
        "play" => run_play(rest),
        "make" => run_make(rest),
        "compare" => run_compare(rest),
        "cover" => run_cover(rest),
        "journal" => run_journal(rest),
        "journal-make" => run_journal_make(rest),
        "journal-cuts" => run_journal_cuts(rest),
        "journal-compare" => run_journal_compare(rest),
        other => Err(format!(
            "there is no command `{other}`; it is one of {COMMANDS}"
        )),
    }
}

/// Prints bytes; it is not a fault if nobody reads them any more.
fn print(bytes: &[u8]) -> Result<bool, String> {
    let mut out = io::stdout().lock();
    finish(out.write_all(bytes).and_then(|()| out.flush()))
}

/// Treats a closed pipe as a quiet end, and reports any other fault.
fn finish(result: io::Result<()>) -> Result<bool, String> {
    match result {
        Ok(()) => Ok(true),
        Err(error) if error.kind() == io::ErrorKind::BrokenPipe => Ok(true),
        Err(error) => Err(format!("reading or writing failed: {error}")),
    }
}

fn run_play(arguments: &[String]) -> Result<bool, String> {
    Options::read(arguments, &[])?;
    let input = BufReader::with_capacity(1 << 16, io::stdin().lock());
    finish(play::play(input, io::stdout().lock(), None))
}

fn run_make(arguments: &[String]) -> Result<bool, String> {
    let options = Options::read(arguments, &["--seed", "--calls"])?;
    let seed = options.number("--seed")?.ok_or("make needs --seed N")?;
    print(&make::make(seed, options.calls()?))
}

fn run_compare(arguments: &[String]) -> Result<bool, String> {
    let known = [
        "--program",
        "--seeds",
        "--calls",
        "--differences",
        "--timeout",
        "--full",
    ];
    let options = Options::read(arguments, &known)?;
    let seeds = options.seeds()?.ok_or("compare needs --seeds A..B")?;
    let settings = Settings {
        program: options.program()?,
        seeds,
        calls: options.calls()?,
        differences: options.differences()?,
        full: options.has("--full"),
    };
    compare::compare(&settings, &mut io::stdout().lock())
}

fn run_cover(arguments: &[String]) -> Result<bool, String> {
    let options = Options::read(arguments, &["--seeds", "--calls", "--full"])?;
    let seeds = options.seeds()?.unwrap_or(USUAL_SEEDS);
    let cover = compare::cover(seeds, options.calls()?);
    print(cover.report(options.has("--full")).as_bytes())?;
    Ok(cover.missing().is_empty())
}

fn run_journal(arguments: &[String]) -> Result<bool, String> {
    Options::read(arguments, &[])?;
    let input = BufReader::with_capacity(1 << 16, io::stdin().lock());
    finish(journal::play::play(input, io::stdout().lock(), None))
}

fn run_journal_make(arguments: &[String]) -> Result<bool, String> {
    let options = Options::read(arguments, &["--seed"])?;
    let seed = options.number("--seed")?;
    print(&journal::make::make(
        seed.ok_or("journal-make needs --seed N")?,
    ))
}

fn run_journal_cuts(arguments: &[String]) -> Result<bool, String> {
    let options = Options::read(arguments, &["--cut", "--history"])?;
    let after = options.part("--cut", 0, u64::from(cuts::LARGEST_CUT))?;
    let numbers = options.part("--history", 1, cuts::HISTORIES.len() as u64)?;
    let mut text = Vec::new();
    for cut in after {
        for number in numbers.clone() {
            let history = &cuts::HISTORIES[number as usize - 1];
            text.extend(history.script(cut as u32));
        }
    }
    print(&text)
}

fn run_journal_compare(arguments: &[String]) -> Result<bool, String> {
    let known = [
        "--program",
        "--seeds",
        "--cuts",
        "--differences",
        "--timeout",
    ];
    let options = Options::read(arguments, &known)?;
    let seeds = options.seeds()?;
    if seeds.is_none() && !options.has("--cuts") {
        return Err("journal-compare needs --seeds A..B or --cuts".to_string());
    }
    let settings = journal::compare::Settings {
        program: options.program()?,
        seeds: seeds.unwrap_or(0..0),
        cuts: options.has("--cuts"),
        differences: options.differences()?,
    };
    journal::compare::compare(&settings, &mut io::stdout().lock())
}

/// The options of a command, each with its value.
struct Options {
    pairs: Vec<(String, String)>,
}

impl Options {
    /// Reads options; fails in plain words for one that is unknown, double or without a value.
    fn read(arguments: &[String], known: &[&str]) -> Result<Options, String> {
        let mut pairs: Vec<(String, String)> = Vec::new();
        let mut rest = arguments.iter();
        while let Some(name) = rest.next() {
            if !known.contains(&name.as_str()) {
                return Err(format!("`{name}` is not known here"));
            }
            if pairs.iter().any(|(earlier, _)| earlier == name) {
                return Err(format!("`{name}` is given twice"));
            }
            let value = match name.as_str() {
                "--full" | "--cuts" => String::new(),
                _ => rest
                    .next()
                    .ok_or_else(|| format!("`{name}` needs a value"))?
                    .clone(),
            };
            pairs.push((name.clone(), value));
        }
        Ok(Options { pairs })
    }

    fn has(&self, name: &str) -> bool {
        self.value(name).is_some()
    }

    fn value(&self, name: &str) -> Option<&str> {
        let pair = self.pairs.iter().find(|(known, _)| known == name)?;
        Some(&pair.1)
    }

    fn number(&self, name: &str) -> Result<Option<u64>, String> {
        self.value(name)
            .map(|value| read_number(name, value))
            .transpose()
    }

    /// Gives the program to compare with.
    fn program(&self) -> Result<Program, String> {
        let path = self
            .value("--program")
            .ok_or("`--program PATH` is needed")?;
        let timeout = self.number("--timeout")?.unwrap_or(USUAL_TIMEOUT);
        Program::new(path, Duration::from_secs(timeout.max(1)))
    }

    /// Gives the number of differing scripts after which a run stops.
    fn differences(&self) -> Result<u64, String> {
        Ok(self.number("--differences")?.unwrap_or(1).max(1))
    }

    /// Gives the one number that an option names, or all from `first` to `last`.
    fn part(&self, name: &str, first: u64, last: u64) -> Result<RangeInclusive<u64>, String> {
        match self.number(name)? {
            None => Ok(first..=last),
            Some(one) if (first..=last).contains(&one) => Ok(one..=one),
            Some(_) => Err(format!("`{name}` is {first} to {last}")),
        }
    }

    /// Gives the number of calls, 1 or more.
    fn calls(&self) -> Result<u64, String> {
        match self.number("--calls")? {
            None => Ok(make::USUAL_CALLS),
            Some(0) => Err("`--calls` is 1 or more".to_string()),
            Some(calls) => Ok(calls),
        }
    }

    /// Gives the seeds, at least one.
    fn seeds(&self) -> Result<Option<Range<u64>>, String> {
        let Some(value) = self.value("--seeds") else {
            return Ok(None);
        };
        let wrong = || format!("`--seeds {value}` is not of the form A..B");
        let (first, last) = value.split_once("..").ok_or_else(wrong)?;
        let start = read_number("--seeds", first)?;
        let end = match last.strip_prefix('=') {
            Some(last) => read_number("--seeds", last)?
                .checked_add(1)
                .ok_or_else(wrong)?,
            None => read_number("--seeds", last)?,
        };
        if start >= end {
            return Err(format!("`--seeds {value}` holds no seed"));
        }
        Ok(Some(start..end))
    }
}

/// Reads a number of an option.
fn read_number(name: &str, value: &str) -> Result<u64, String> {
    value
        .parse()
        .map_err(|_| format!("`{value}` is not a number that `{name}` can take"))
}
