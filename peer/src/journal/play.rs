//! Plays a journal's script on a region of its own and prints a line for each call.

use super::cover::Cover;
use super::script::{self, Call};
use super::{Entry, Journal, Written};
use crate::play::play_lines;
use crate::script::add_hex;
use std::io::{self, BufRead, Write};

/// What a call gives where it is not refused.
#[derive(Clone, Debug, PartialEq, Eq)]
pub enum Answer {
    Stored(Written),
    /// Nothing where no block is bad.
    Repaired(Option<Written>),
    Entries(Vec<Entry>),
    Listed(Vec<u32>),
    Damaged,
    /// The bytes of a block, or nothing where the region does not hold it.
    Block(Option<Vec<u8>>),
}

/// Runs a call; a place to damage lies in the region, which the reader of the line sees to.
pub fn run(journal: &mut Journal, call: &Call) -> Result<Answer, u8> {
    Ok(match *call {
        Call::Store { id, kind, stores } => Answer::Stored(journal.store(id, kind, stores)?),
        Call::Repair { stores } => Answer::Repaired(journal.repair(stores)?),
        Call::Read => Answer::Entries(journal.read()?),
        Call::List => Answer::Listed(journal.list()?),
        Call::Damage { place, byte } => {
            journal.region[place as usize] = byte;
            Answer::Damaged
        }
        Call::Block { number } => Answer::Block(journal.block(number).map(|block| block.to_vec())),
    })
}

/// Prints the line or lines of a call's answer.
fn print(call: &Call, answer: &Result<Answer, u8>, text: &mut Vec<u8>) -> io::Result<()> {
    text.extend_from_slice(call.word().as_bytes());
    match answer {
        Err(number) => writeln!(text, " refused {number}"),
        Ok(Answer::Stored(Written::Whole(serial))) => writeln!(text, " ok serial {serial}"),
        Ok(Answer::Repaired(Some(Written::Whole(place)))) => writeln!(text, " ok block {place}"),
        Ok(Answer::Stored(Written::Cut(count)) | Answer::Repaired(Some(Written::Cut(count)))) => {
            writeln!(text, " cut {count}")
        }
        Ok(Answer::Repaired(None)) => writeln!(text, " ok none"),
        Ok(Answer::Entries(entries)) => print_entries(entries, text),
        Ok(Answer::Listed(serials)) => print_serials(serials, text),
        Ok(Answer::Damaged) => writeln!(text, " ok"),
        Ok(Answer::Block(None)) => writeln!(text, " none"),
        Ok(Answer::Block(Some(bytes))) => {
            text.push(b' ');
            add_hex(text, bytes);
            writeln!(text)
        }
    }
}

/// Prints the number of entries, and a line for each.
fn print_entries(entries: &[Entry], text: &mut Vec<u8>) -> io::Result<()> {
    writeln!(text, " ok {}", entries.len())?;
    for Entry { serial, id, kind } in entries {
        writeln!(text, "entry {serial} id {id} kind {kind}")?;
    }
    Ok(())
}

/// Prints the serials behind one another.
fn print_serials(serials: &[u32], text: &mut Vec<u8>) -> io::Result<()> {
    text.extend_from_slice(b" ok");
    for serial in serials {
        write!(text, " {serial}")?;
    }
    writeln!(text)
}

/// Plays a whole script from `input` to `output`; counts what it reaches in `cover`.
pub fn play<R: BufRead, W: Write>(
    input: R,
    output: W,
    mut cover: Option<&mut Cover>,
) -> io::Result<()> {
    let mut journal: Option<Journal> = None;
    let good = play_lines(input, output, &mut |line, text| {
        play_line(&mut journal, line, text, &mut cover)
    })?;
    if let Some(cover) = cover {
        cover.end(journal.is_some(), good);
    }
    Ok(())
}

/// Plays one line that is not skipped; tells whether it was one of the script language.
fn play_line(
    journal: &mut Option<Journal>,
    line: &[u8],
    text: &mut Vec<u8>,
    cover: &mut Option<&mut Cover>,
) -> bool {
    let Some(journal) = journal else {
        *journal = begin(line, cover);
        return journal.is_some();
    };
    let Some(call) = script::read_call(line, journal.region.len()) else {
        return false;
    };
    let before = cover.as_ref().map(|cover| cover.before(journal));
    let answer = run(journal, &call);
    print(&call, &answer, text).expect("writing to memory does not fail");
    if let (Some(cover), Some(before)) = (cover, before) {
        cover.after(journal, &call, before, &answer);
    }
    true
}

/// Makes the journal that the first line names, or nothing for a script error.
fn begin(line: &[u8], cover: &mut Option<&mut Cover>) -> Option<Journal> {
    let length = script::read_first(line)?;
    if let Some(cover) = cover {
        cover.region(length);
    }
    Some(Journal::new(length as usize))
}

/// Plays a script in memory and gives the text that it prints.
pub fn play_bytes(script: &[u8], cover: Option<&mut Cover>) -> Vec<u8> {
    let mut text = Vec::new();
    play(script, &mut text, cover).expect("reading and writing memory does not fail");
    text
}
