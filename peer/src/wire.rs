//! Messages and connection headers, to and from bytes.

use crate::refusal::{self, Refusal, Violation};
use std::fmt;

/// The end of the connection that one is, or that a message comes from.
#[derive(Clone, Copy, Debug, PartialEq, Eq)]
pub enum Role {
    Client,
    Server,
}

impl Role {
    /// Gives the other end.
    pub fn other(self) -> Role {
        match self {
            Role::Client => Role::Server,
            Role::Server => Role::Client,
        }
    }

    /// Gives the word that scripts use for this end.
    pub fn word(self) -> &'static str {
        match self {
            Role::Client => "client",
            Role::Server => "server",
        }
    }
}

/// The length of a connection header.
pub const HEADER_LENGTH: usize = 8;

/// The length of the part that every message has.
pub const MESSAGE_START: usize = 4;

/// The largest session number.
pub const LARGEST_ID: u8 = 127;

const MAGIC_AND_VERSION: [u8; 5] = [0x4A, 0x6D, 0x75, 0x78, 0x01];

/// The open flag in the first byte of a Data message.
pub const OPEN: u8 = 0x10;

const CLOSE: u8 = 0x08;
const EOF: u8 = 0x04;
const ACK: u8 = 0x02;

/// Gives the 8 bytes of a connection header with this header number.
pub fn write_header(number: u16) -> [u8; HEADER_LENGTH] {
    let [high, low] = number.to_be_bytes();
    let [j, m, u, x, version] = MAGIC_AND_VERSION;
    [j, m, u, x, version, high, low, 0]
}

/// Reads a connection header: its number, or 10 if it is cut, or 22 with the first wrong byte's place.
pub fn read_header(bytes: &[u8]) -> Result<u16, Refusal> {
    let header = *bytes.first_chunk().ok_or(refusal::INCOMPLETE)?;
    match wrong_header_bytes(header).next() {
        Some(place) => Err(Violation::new(refusal::BAD_HEADER, place).into()),
        None => Ok(header_number(header)),
    }
}

/// Gives the header number of a connection header, good or bad.
fn header_number(header: [u8; HEADER_LENGTH]) -> u16 {
    u16::from_be_bytes([header[5], header[6]])
}

/// Gives the places of a connection header's wrong bytes, in order: those that differ from the right header with
/// the same number, so that a byte of the number is never wrong.
pub fn wrong_header_bytes(header: [u8; HEADER_LENGTH]) -> impl Iterator<Item = u32> {
    let right = write_header(header_number(header));
    let pairs = header.into_iter().zip(right);
    places_where(pairs.map(|(byte, right)| byte != right))
}

/// The fields of a Data message.
#[derive(Clone, Copy, Debug, PartialEq, Eq, Default)]
pub struct Data {
    pub id: u8,
    pub open: bool,
    pub close: bool,
    pub eof: bool,
    pub ack: bool,
    pub length: u16,
}

/// A message, without the bytes that follow its first four.
#[derive(Clone, Copy, Debug, PartialEq, Eq)]
pub enum Message {
    NoOperation { length: u16 },
    Shutdown { length: u16 },
    Ping { cookie: u16 },
    PingAck { cookie: u16 },
    Error { length: u16 },
    Increment { id: u8, shift: u8, increment: u16 },
    Abort { id: u8, partial: bool, length: u16 },
    Close { id: u8 },
    Acknowledgment { id: u8 },
    Data(Data),
}

impl Message {
    /// Reads the message that begins the bytes, or gives 10, 20, 21, 23 or 24.
    pub fn read(bytes: &[u8], sender: Role) -> Result<Message, Refusal> {
        let start = *bytes.first_chunk().ok_or(refusal::INCOMPLETE)?;
        let message = Message::from_start(start)?;
        message.check_sender(sender)?;
        message.check_flags(sender)?;
        if bytes.len() < message.size() {
            return Err(refusal::INCOMPLETE.into());
        }
        Ok(message)
    }

    /// Reads the first four bytes alone, or gives 20 or 21.
    fn from_start(start: [u8; MESSAGE_START]) -> Result<Message, Violation> {
        let [first, id, high, low] = start;
        let number = u16::from_be_bytes([high, low]);
        let message = Message::from_parts(first, id, number).ok_or(Violation::FIRST_BYTE)?;
        match wrong_reserved_bytes(start).next() {
            Some(place) => Err(Violation::new(refusal::RESERVED, place)),
            None => Ok(message),
        }
    }

    /// Gives the message of this first byte, or nothing if the published table of first bytes has no such byte.
    fn from_parts(first: u8, id: u8, number: u16) -> Option<Message> {
        Some(match first {
            0x00 => Message::NoOperation { length: number },
            0x02 => Message::Shutdown { length: number },
            0x04 => Message::Ping { cookie: number },
            0x06 => Message::PingAck { cookie: number },
            0x08 => Message::Error { length: number },
            0x30 => Message::Close { id },
            0x40 => Message::Acknowledgment { id },
            _ if first & 0xF1 == 0x10 => Message::Increment {
                id,
                shift: (first >> 1) & 7,
                increment: number,
            },
            _ if first & 0xFD == 0x20 => Message::Abort {
                id,
                partial: first & 0x02 != 0,
                length: number,
            },
            _ if first & 0xE1 == 0x80 => Message::Data(Data {
                id,
                open: first & OPEN != 0,
                close: first & CLOSE != 0,
                eof: first & EOF != 0,
                ack: first & ACK != 0,
                length: number,
            }),
            _ => return None,
        })
    }

    /// Refuses with 23 a type that this sender must not send.
    fn check_sender(&self, sender: Role) -> Result<(), Violation> {
        let wrong = match self {
            Message::Shutdown { .. } | Message::Close { .. } => sender == Role::Client,
            Message::Acknowledgment { .. } => sender == Role::Server,
            _ => false,
        };
        if wrong {
            return Err(Violation::SENDER);
        }
        Ok(())
    }

    /// Refuses with 24 flags that this sender must not set, or not together.
    fn check_flags(&self, sender: Role) -> Result<(), Violation> {
        let wrong = match self {
            Message::Abort { partial, .. } => *partial && sender == Role::Client,
            Message::Data(data) => data.flags_wrong(sender),
            _ => false,
        };
        if wrong {
            return Err(Violation::FLAGS);
        }
        Ok(())
    }

    /// Gives the four bytes that begin this message on the line.
    pub fn start(&self) -> [u8; MESSAGE_START] {
        let (first, id, number) = match *self {
            Message::NoOperation { length } => (0x00, 0, length),
            Message::Shutdown { length } => (0x02, 0, length),
            Message::Ping { cookie } => (0x04, 0, cookie),
            Message::PingAck { cookie } => (0x06, 0, cookie),
            Message::Error { length } => (0x08, 0, length),
            Message::Increment {
                id,
                shift,
                increment,
            } => (0x10 | (shift << 1), id, increment),
            Message::Abort {
                id,
                partial,
                length,
            } => (0x20 | (u8::from(partial) << 1), id, length),
            Message::Close { id } => (0x30, id, 0),
            Message::Acknowledgment { id } => (0x40, id, 0),
            Message::Data(data) => (data.first_byte(), data.id, data.length),
        };
        let [high, low] = number.to_be_bytes();
        [first, id, high, low]
    }

    /// Gives the number of bytes that follow the first four.
    pub fn body(&self) -> u16 {
        match *self {
            Message::NoOperation { length }
            | Message::Shutdown { length }
            | Message::Error { length }
            | Message::Abort { length, .. } => length,
            Message::Data(data) => data.length,
            _ => 0,
        }
    }

    /// Gives the whole message's number of bytes.
    pub fn size(&self) -> usize {
        MESSAGE_START + usize::from(self.body())
    }

    /// Gives the session number of a message that pertains to a session.
    pub fn id(&self) -> Option<u8> {
        match *self {
            Message::Increment { id, .. }
            | Message::Abort { id, .. }
            | Message::Close { id }
            | Message::Acknowledgment { id } => Some(id),
            Message::Data(data) => Some(data.id),
            _ => None,
        }
    }
}

/// Gives the reserved bits of each of the four bytes that begin a message of this type.
///
/// Those of the first byte are left out: a first byte with one of them set is of no type.
fn reserved_bits(first: u8) -> [u8; MESSAGE_START] {
    match first {
        // The connection's messages, which have no session number.
        0x00..=0x0F => [0, 0xFF, 0, 0],
        // Close and Acknowledgment, which have no 16-bit number.
        0x30 | 0x40 => [0, 0x80, 0xFF, 0xFF],
        _ => [0, 0x80, 0, 0],
    }
}

/// Gives the places of the bytes with a wrong reserved bit, in order.
pub fn wrong_reserved_bytes(start: [u8; MESSAGE_START]) -> impl Iterator<Item = u32> {
    let masks = reserved_bits(start[0]);
    let pairs = start.into_iter().zip(masks);
    places_where(pairs.map(|(byte, mask)| byte & mask != 0))
}

/// Gives the places at which the answers are true, in order and from 0.
fn places_where(answers: impl Iterator<Item = bool>) -> impl Iterator<Item = u32> {
    let pairs = (0..).zip(answers);
    pairs.filter_map(|(place, answer)| answer.then_some(place))
}

/// Gives the effective increment: the number shifted left by twice the shift.
pub fn effective(shift: u8, increment: u16) -> u32 {
    u32::from(increment) << (2 * u32::from(shift))
}

impl Data {
    /// Tells whether this sender must not send these flags.
    fn flags_wrong(&self, sender: Role) -> bool {
        let servers = self.close || self.ack;
        match sender {
            Role::Client => servers,
            Role::Server => self.open || (servers && !self.eof),
        }
    }

    /// Gives the first byte on the line.
    fn first_byte(&self) -> u8 {
        let mut first = 0x80;
        for (flag, bit) in [
            (self.open, OPEN),
            (self.close, CLOSE),
            (self.eof, EOF),
            (self.ack, ACK),
        ] {
            if flag {
                first |= bit;
            }
        }
        first
    }
}

impl fmt::Display for Message {
    /// Writes the message as docs/SCRIPTS.md's MESSAGE.
    fn fmt(&self, f: &mut fmt::Formatter<'_>) -> fmt::Result {
        match *self {
            Message::NoOperation { length } => write!(f, "noop length {length}"),
            Message::Shutdown { length } => write!(f, "shutdown length {length}"),
            Message::Ping { cookie } => write!(f, "ping cookie {cookie}"),
            Message::PingAck { cookie } => write!(f, "pingack cookie {cookie}"),
            Message::Error { length } => write!(f, "error length {length}"),
            Message::Increment {
                id,
                shift,
                increment,
            } => write!(f, "increment id {id} shift {shift} increment {increment}"),
            Message::Abort {
                id,
                partial,
                length,
            } => {
                let partial = if partial { " partial" } else { "" };
                write!(f, "abort id {id}{partial} length {length}")
            }
            Message::Close { id } => write!(f, "close id {id}"),
            Message::Acknowledgment { id } => write!(f, "ack id {id}"),
            Message::Data(data) => write!(f, "{data}"),
        }
    }
}

impl fmt::Display for Data {
    fn fmt(&self, f: &mut fmt::Formatter<'_>) -> fmt::Result {
        write!(f, "data id {}", self.id)?;
        for (flag, word) in [
            (self.open, " open"),
            (self.close, " close"),
            (self.eof, " eof"),
            (self.ack, " ack"),
        ] {
            if flag {
                f.write_str(word)?;
            }
        }
        write!(f, " length {}", self.length)
    }
}

#[cfg(test)]
mod tests;
