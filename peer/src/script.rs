//! The script language of docs/SCRIPTS.md: lines to calls, and calls to lines.

mod lines;
mod read;
#[cfg(test)]
mod tests;

pub use lines::{Line, Lines};
pub(crate) use read::Words;
pub use read::{read_call, read_first};

use crate::wire::Role;

/// The most bytes of room that a call may be lent.
pub const LARGEST_ROOM: u32 = 66_000;

/// The room that a call gets where the script names none.
pub const USUAL_ROOM: u32 = 600;

/// The most bytes that `put` takes.
pub const LARGEST_PUT: usize = 1_024;

/// The most bytes that `receive` takes.
pub const LARGEST_RECEIVE: usize = 66_000;

/// The longest queue that a script may name.
pub const LARGEST_QUEUE: u32 = 70_000;

const LARGEST_BYTE: u32 = 255;
const LARGEST_DIGITS: usize = 9;

/// No line of a call is longer than this: `receive`, its bytes, its room.
const LONGEST_LINE: usize = 8 + 2 * LARGEST_RECEIVE + 1 + LARGEST_DIGITS;

/// The first line of a script.
#[derive(Clone, Debug, PartialEq, Eq)]
pub struct First {
    pub role: Role,
    pub header: u16,
    pub queue: Option<u32>,
}

/// A room: a number, or nothing where the script leaves it out.
pub type Room = Option<u32>;

/// A call of a script.
#[derive(Clone, Debug, PartialEq, Eq)]
pub enum Call {
    Start { room: Room },
    Open { id: u8 },
    Put { id: u8, bytes: Vec<u8> },
    Finish { id: u8 },
    Turn { room: Room },
    Grant { id: u8, amount: u32, room: Room },
    Abort { id: u8, partial: bool, room: Room },
    Close { id: u8, room: Room },
    Ping { cookie: u16, room: Room },
    Shutdown { room: Room },
    Lost,
    Receive { bytes: Vec<u8>, room: Room },
    State,
    Queue { id: u8 },
}

/// Every first word of a call, in docs/SCRIPTS.md's order.
pub const WORDS: [&str; 14] = [
    "start", "open", "put", "finish", "turn", "grant", "abort", "close", "ping", "shutdown",
    "lost", "receive", "state", "queue",
];

impl Call {
    /// Gives the place of the call's first word in `WORDS`.
    pub fn index(&self) -> usize {
        match self {
            Call::Start { .. } => 0,
            Call::Open { .. } => 1,
            Call::Put { .. } => 2,
            Call::Finish { .. } => 3,
            Call::Turn { .. } => 4,
            Call::Grant { .. } => 5,
            Call::Abort { .. } => 6,
            Call::Close { .. } => 7,
            Call::Ping { .. } => 8,
            Call::Shutdown { .. } => 9,
            Call::Lost => 10,
            Call::Receive { .. } => 11,
            Call::State => 12,
            Call::Queue { .. } => 13,
        }
    }

    /// Gives the call's first word.
    pub fn word(&self) -> &'static str {
        WORDS[self.index()]
    }

    /// Tells whether the engine is called, which `state` and `queue` do not.
    pub fn is_engine_call(&self) -> bool {
        !matches!(self, Call::State | Call::Queue { .. })
    }

    /// Gives the session number that the call names.
    pub fn id(&self) -> Option<u8> {
        match *self {
            Call::Open { id }
            | Call::Put { id, .. }
            | Call::Finish { id }
            | Call::Grant { id, .. }
            | Call::Abort { id, .. }
            | Call::Close { id, .. } => Some(id),
            _ => None,
        }
    }

    /// Gives the place of the room, for a call that takes one.
    pub fn room_mut(&mut self) -> Option<&mut Room> {
        match self {
            Call::Start { room }
            | Call::Turn { room }
            | Call::Grant { room, .. }
            | Call::Abort { room, .. }
            | Call::Close { room, .. }
            | Call::Ping { room, .. }
            | Call::Shutdown { room }
            | Call::Receive { room, .. } => Some(room),
            _ => None,
        }
    }

    /// Writes the call as a line of a script, without the 0A at its end.
    pub fn write(&self, line: &mut Vec<u8>) {
        line.extend_from_slice(self.word().as_bytes());
        if let Some(id) = self.id() {
            add_number(line, u32::from(id));
        }
        match self {
            Call::Put { bytes, .. } => add_bytes(line, bytes),
            Call::Receive { bytes, room } => {
                add_bytes(line, bytes);
                add_room(line, *room);
            }
            Call::Grant { amount, room, .. } => {
                add_number(line, *amount);
                add_room(line, *room);
            }
            Call::Abort { partial, room, .. } => {
                line.extend_from_slice(if *partial { b" partial" } else { b" whole" });
                add_room(line, *room);
            }
            Call::Ping { cookie, room } => {
                add_number(line, u32::from(*cookie));
                add_room(line, *room);
            }
            Call::Start { room }
            | Call::Turn { room }
            | Call::Close { room, .. }
            | Call::Shutdown { room } => add_room(line, *room),
            Call::Queue { id } => add_number(line, u32::from(*id)),
            Call::Open { .. } | Call::Finish { .. } | Call::Lost | Call::State => {}
        }
    }
}

impl First {
    /// Writes the first line of a script, without the 0A at its end.
    pub fn write(&self, line: &mut Vec<u8>) {
        line.extend_from_slice(self.role.word().as_bytes());
        add_number(line, u32::from(self.header));
        if let Some(length) = self.queue {
            line.extend_from_slice(b" queue");
            add_number(line, length);
        }
    }
}

/// Adds a space and a number.
pub(crate) fn add_number(line: &mut Vec<u8>, number: u32) {
    line.push(b' ');
    line.extend_from_slice(number.to_string().as_bytes());
}

/// Adds a space and the room, where one is named.
fn add_room(line: &mut Vec<u8>, room: Room) {
    if let Some(room) = room {
        add_number(line, room);
    }
}

/// Adds a space and bytes in hex, or `-` for none.
fn add_bytes(line: &mut Vec<u8>, bytes: &[u8]) {
    line.push(b' ');
    if bytes.is_empty() {
        line.push(b'-');
    }
    add_hex(line, bytes);
}

/// Adds bytes in hex.
pub fn add_hex(line: &mut Vec<u8>, bytes: &[u8]) {
    const DIGITS: &[u8; 16] = b"0123456789abcdef";
    for byte in bytes {
        line.push(DIGITS[usize::from(byte >> 4)]);
        line.push(DIGITS[usize::from(byte & 15)]);
    }
}
