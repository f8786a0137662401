//! The lines of a journal's script: lines to calls, and calls to lines.

use super::Stores;
use crate::script::{add_number, Words};

/// The longest region that a script may name.
pub const LONGEST_REGION: u32 = 70_000;

/// The largest number of byte stores that a script may name.
pub const MOST_STORES: u32 = 999;

/// A call of a journal's script.
#[derive(Clone, Copy, Debug, PartialEq, Eq)]
pub enum Call {
    Store { id: u8, kind: u8, stores: Stores },
    Repair { stores: Stores },
    Read,
    List,
    Damage { place: u32, byte: u8 },
    Block { number: u32 },
}

impl Call {
    /// Gives the call's first word.
    pub fn word(&self) -> &'static str {
        match self {
            Call::Store { .. } => "store",
            Call::Repair { .. } => "repair",
            Call::Read => "read",
            Call::List => "list",
            Call::Damage { .. } => "damage",
            Call::Block { .. } => "block",
        }
    }

    /// Tells whether the journal is called, which `damage` and `block` do not.
    pub fn is_journal_call(&self) -> bool {
        !matches!(self, Call::Damage { .. } | Call::Block { .. })
    }

    /// Writes the call as a line of a script, without the 0A at its end.
    pub fn write(&self, line: &mut Vec<u8>) {
        line.extend_from_slice(self.word().as_bytes());
        match *self {
            Call::Store { id, kind, stores } => {
                add_number(line, u32::from(id));
                add_number(line, u32::from(kind));
                add_stores(line, stores);
            }
            Call::Repair { stores } => add_stores(line, stores),
            Call::Read | Call::List => {}
            Call::Damage { place, byte } => {
                add_number(line, place);
                add_number(line, u32::from(byte));
            }
            Call::Block { number } => add_number(line, number),
        }
    }
}

/// Adds a space and the byte stores, where they are named.
fn add_stores(line: &mut Vec<u8>, stores: Stores) {
    if let Some(stores) = stores {
        add_number(line, stores);
    }
}

/// Writes the first line of a script, without the 0A at its end.
pub fn write_first(length: u32, line: &mut Vec<u8>) {
    line.extend_from_slice(b"region");
    add_number(line, length);
}

/// Reads the region's length from the first line of a script, or gives nothing for a script error.
pub fn read_first(line: &[u8]) -> Option<u32> {
    let mut words = Words::new(line);
    if words.next()? != b"region" {
        return None;
    }
    let length = words.number(LONGEST_REGION)?;
    words.end(length)
}

/// Reads the line of a call on a region of this length, or gives nothing for a script error.
pub fn read_call(line: &[u8], length: usize) -> Option<Call> {
    let mut words = Words::new(line);
    let call = match words.next()? {
        b"store" => Call::Store {
            id: words.byte()?,
            kind: words.byte()?,
            stores: words.optional(MOST_STORES)?,
        },
        b"repair" => Call::Repair {
            stores: words.optional(MOST_STORES)?,
        },
        b"read" => Call::Read,
        b"list" => Call::List,
        b"damage" => Call::Damage {
            place: words.number(length.checked_sub(1)?.try_into().ok()?)?,
            byte: words.byte()?,
        },
        b"block" => Call::Block {
            number: words.number(u32::MAX)?,
        },
        _ => return None,
    };
    words.end(call)
}
