//! Reads the lines of a script: words, numbers, bytes and calls.

use super::{
    Call, First, Room, LARGEST_BYTE, LARGEST_DIGITS, LARGEST_PUT, LARGEST_QUEUE, LARGEST_RECEIVE,
    LARGEST_ROOM,
};
use crate::wire::Role;

/// The words of one line; between two spaces there is an empty word, which fits nowhere.
pub(crate) struct Words<'a> {
    rest: Option<&'a [u8]>,
}

impl<'a> Words<'a> {
    pub(crate) fn new(line: &'a [u8]) -> Words<'a> {
        Words { rest: Some(line) }
    }

    /// Gives the next word, or nothing at the end of the line.
    pub(crate) fn next(&mut self) -> Option<&'a [u8]> {
        let rest = self.rest?;
        match rest.iter().position(|&byte| byte == b' ') {
            Some(space) => {
                self.rest = Some(&rest[space + 1..]);
                Some(&rest[..space])
            }
            None => {
                self.rest = None;
                Some(rest)
            }
        }
    }

    /// Gives the next word as a number up to `largest`.
    pub(crate) fn number(&mut self, largest: u32) -> Option<u32> {
        read_number(self.next()?, largest)
    }

    /// Gives a number up to `largest` if a word is left, and fails if that word is not one.
    pub(crate) fn optional(&mut self, largest: u32) -> Option<Option<u32>> {
        if self.rest.is_none() {
            return Some(None);
        }
        self.number(largest).map(Some)
    }

    /// Gives the next word as a number from 0 to 255, as scripts name sessions.
    pub(crate) fn byte(&mut self) -> Option<u8> {
        self.number(LARGEST_BYTE)?.try_into().ok()
    }

    /// Gives the next word as a 16-bit number.
    fn short(&mut self) -> Option<u16> {
        self.number(u32::from(u16::MAX))?.try_into().ok()
    }

    /// Gives the next word as at most `largest` bytes.
    fn bytes(&mut self, largest: usize) -> Option<Vec<u8>> {
        read_bytes(self.next()?, largest)
    }

    /// Gives the room if a word is left, and fails if that word is not a room.
    fn room(&mut self) -> Option<Room> {
        self.optional(LARGEST_ROOM)
    }

    /// Gives the value if no word is left.
    pub(crate) fn end<T>(&self, value: T) -> Option<T> {
        match self.rest {
            None => Some(value),
            Some(_) => None,
        }
    }
}

/// Reads a decimal number: no sign, no leading zero, at most 9 digits, at most `largest`.
fn read_number(word: &[u8], largest: u32) -> Option<u32> {
    let leading_zero = word.len() > 1 && word[0] == b'0';
    if word.is_empty() || word.len() > LARGEST_DIGITS || leading_zero {
        return None;
    }
    let mut number = 0u32;
    for &digit in word {
        if !digit.is_ascii_digit() {
            return None;
        }
        number = number * 10 + u32::from(digit - b'0');
    }
    (number <= largest).then_some(number)
}

/// Reads `-` or an even, non-zero number of lower-case hex digits, at most `largest` bytes.
fn read_bytes(word: &[u8], largest: usize) -> Option<Vec<u8>> {
    if word == b"-" {
        return Some(Vec::new());
    }
    let odd = word.len() & 1 == 1;
    if word.is_empty() || odd || word.len() / 2 > largest {
        return None;
    }
    word.chunks_exact(2)
        .map(|pair| Some(hex_digit(pair[0])? << 4 | hex_digit(pair[1])?))
        .collect()
}

/// Reads one lower-case hex digit.
fn hex_digit(digit: u8) -> Option<u8> {
    match digit {
        b'0'..=b'9' => Some(digit - b'0'),
        b'a'..=b'f' => Some(digit - b'a' + 10),
        _ => None,
    }
}

/// Reads the first line of a script, or gives nothing for a script error.
pub fn read_first(line: &[u8]) -> Option<First> {
    let mut words = Words::new(line);
    let role = match words.next()? {
        b"client" => Role::Client,
        b"server" => Role::Server,
        _ => return None,
    };
    let header = words.short()?;
    let queue = match words.next() {
        None => None,
        Some(b"queue") => Some(words.number(LARGEST_QUEUE)?),
        Some(_) => return None,
    };
    words.end(First {
        role,
        header,
        queue,
    })
}

/// Reads the line of a call, or gives nothing for a script error.
pub fn read_call(line: &[u8]) -> Option<Call> {
    let mut words = Words::new(line);
    let call = match words.next()? {
        b"start" => Call::Start {
            room: words.room()?,
        },
        b"turn" => Call::Turn {
            room: words.room()?,
        },
        b"ping" => Call::Ping {
            cookie: words.short()?,
            room: words.room()?,
        },
        b"shutdown" => Call::Shutdown {
            room: words.room()?,
        },
        b"lost" => Call::Lost,
        b"receive" => Call::Receive {
            bytes: words.bytes(LARGEST_RECEIVE)?,
            room: words.room()?,
        },
        b"state" => Call::State,
        word => read_session_call(word, &mut words)?,
    };
    words.end(call)
}

/// Reads the words behind the first word of a call that names a session number.
fn read_session_call(word: &[u8], words: &mut Words) -> Option<Call> {
    let id = words.byte()?;
    let call = match word {
        b"open" => Call::Open { id },
        b"put" => Call::Put {
            id,
            bytes: words.bytes(LARGEST_PUT)?,
        },
        b"finish" => Call::Finish { id },
        b"grant" => Call::Grant {
            id,
            amount: words.number(u32::MAX)?,
            room: words.room()?,
        },
        b"abort" => Call::Abort {
            id,
            partial: read_partial(words.next()?)?,
            room: words.room()?,
        },
        b"close" => Call::Close {
            id,
            room: words.room()?,
        },
        b"queue" => Call::Queue { id },
        _ => return None,
    };
    Some(call)
}

/// Reads the word that says whether an abort is partial.
fn read_partial(word: &[u8]) -> Option<bool> {
    match word {
        b"whole" => Some(false),
        b"partial" => Some(true),
        _ => None,
    }
}
