//! One call of a journal's script with what stood before and after it, and questions about it.

use super::Before;
use crate::journal::play::Answer;
use crate::journal::script::Call;
use crate::journal::{Entry, Journal, Written, RULES, START};

/// A start of a listed journal, as far as the listing looks at it.
pub struct Start {
    /// The kinds of its number up to that number's next start, or the end.
    pub fates: Vec<u8>,
    /// Whether its number is started again.
    pub again: bool,
    /// Whether another number is complete or may be retried in between.
    pub others: bool,
}

/// One call with the state before and after it.
pub struct Step<'a> {
    pub call: &'a Call,
    pub answer: &'a Result<Answer, u8>,
    pub journal: &'a Journal,
    pub before: Before,
    /// How many entries can be read after the call.
    pub now: usize,
    /// For a read: the rules that the block breaks at which it ended.
    pub broken: Vec<&'static str>,
    /// For a listing: the entries that it looked at.
    entries: Vec<Entry>,
}

impl<'a> Step<'a> {
    /// Gathers a step from the journal after the call.
    pub fn new(
        journal: &'a Journal,
        call: &'a Call,
        answer: &'a Result<Answer, u8>,
        before: Before,
        now: usize,
    ) -> Step<'a> {
        let broken = match answer {
            Ok(Answer::Entries(entries)) => broken_rules(journal, entries.len() as u32 + 1),
            _ => Vec::new(),
        };
        let entries = match answer {
            Ok(Answer::Listed(_)) => journal.read().unwrap_or_default(),
            _ => Vec::new(),
        };
        Step {
            call,
            answer,
            journal,
            before,
            now,
            broken,
            entries,
        }
    }

    /// Tells whether a call of this word was refused with this number.
    pub fn refused(&self, word: &str, number: u8) -> bool {
        self.call.word() == word && *self.answer == Err(number)
    }

    /// Gives the number and kind of a store.
    pub fn store(&self) -> Option<(u8, u8)> {
        match *self.call {
            Call::Store { id, kind, .. } => Some((id, kind)),
            _ => None,
        }
    }

    /// Tells whether the script says when the power is cut.
    pub fn named_stores(&self) -> bool {
        let (Call::Store { stores, .. } | Call::Repair { stores }) = self.call else {
            return false;
        };
        stores.is_some()
    }

    /// Gives the serial of a store that was made whole.
    pub fn stored(&self) -> Option<u32> {
        match self.answer {
            Ok(Answer::Stored(Written::Whole(serial))) => Some(*serial),
            _ => None,
        }
    }

    /// Gives the byte stores of a store that was cut.
    pub fn cut_store(&self) -> Option<u32> {
        match self.answer {
            Ok(Answer::Stored(Written::Cut(count))) => Some(*count),
            _ => None,
        }
    }

    /// Gives the place of a block that was repaired whole.
    pub fn repaired(&self) -> Option<u32> {
        match self.answer {
            Ok(Answer::Repaired(Some(Written::Whole(place)))) => Some(*place),
            _ => None,
        }
    }

    /// Gives the byte stores of a repair that was cut.
    pub fn cut_repair(&self) -> Option<u32> {
        match self.answer {
            Ok(Answer::Repaired(Some(Written::Cut(count)))) => Some(*count),
            _ => None,
        }
    }

    /// Gives the number of entries that were read.
    pub fn read(&self) -> Option<usize> {
        match self.answer {
            Ok(Answer::Entries(entries)) => Some(entries.len()),
            _ => None,
        }
    }

    /// Gives the number of starts that were listed.
    pub fn listed(&self) -> Option<usize> {
        match self.answer {
            Ok(Answer::Listed(serials)) => Some(serials.len()),
            _ => None,
        }
    }

    /// Tells whether damage was done and the number of entries that can be read passes a test.
    pub fn damaged(&self, test: fn(usize, usize) -> bool) -> bool {
        *self.answer == Ok(Answer::Damaged) && test(self.before.readable, self.now)
    }

    /// Tells whether a block was asked for and whether it was given.
    pub fn block(&self) -> Option<(u32, bool)> {
        match (self.call, self.answer) {
            (Call::Block { number }, Ok(Answer::Block(bytes))) => Some((*number, bytes.is_some())),
            _ => None,
        }
    }

    /// Tells whether a start of a listed journal passes a test.
    pub fn start(&self, test: fn(&Start) -> bool) -> bool {
        let places = 0..self.entries.len();
        let mut starts = places.filter(|place| self.entries[*place].kind == START);
        starts.any(|place| test(&start_at(&self.entries[place..])))
    }

    /// Tells whether a listed journal has a fate before any start of its number.
    pub fn fate_alone(&self) -> bool {
        (0..self.entries.len()).any(|place| {
            let id = self.entries[place].id;
            let mut up_to = self.entries[..=place].iter();
            !up_to.any(|entry| entry.id == id && entry.kind == START)
        })
    }
}

/// Gives the rules that the block at this place breaks.
fn broken_rules(journal: &Journal, place: u32) -> Vec<&'static str> {
    let Some(block) = journal.block(place) else {
        return Vec::new();
    };
    let broken = RULES.iter().filter(|(_, keeps)| !keeps(block, place));
    broken.map(|(name, _)| *name).collect()
}

/// Gives what the listing looks at for the start that these entries begin with.
fn start_at(entries: &[Entry]) -> Start {
    let id = entries[0].id;
    let behind = &entries[1..];
    let next = behind
        .iter()
        .position(|entry| entry.id == id && entry.kind == START);
    let between = &behind[..next.unwrap_or(behind.len())];
    let own = between.iter().filter(|entry| entry.id == id);
    let settles = |entry: &Entry| entry.id != id && matches!(entry.kind, 1 | 2);
    Start {
        fates: own.map(|entry| entry.kind).collect(),
        again: next.is_some(),
        others: between.iter().any(settles),
    }
}
