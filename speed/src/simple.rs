//! A reader as anybody would write it: a match on the first byte, with the rules of each type in
//! the order of their numbers.
use crate::message::{Message, Refused, Sender, Step};

#[inline(always)]
fn refused(number: u8, place: u8) -> Step {
    Err(Refused { number, place })
}

/// The message from a sender at a place of a capture, and the place after it.
#[inline(always)]
pub fn read_at(capture: &[u8], from: Sender, place: usize) -> Step {
    if place > capture.len() {
        return refused(14, 0);
    }
    let rest = &capture[place..];
    if rest.len() < 4 {
        return refused(10, 0);
    }
    let (first, second) = (rest[0], rest[1]);
    let number = u16::from_be_bytes([rest[2], rest[3]]);
    let server = from == Sender::Server;
    let message = match first {
        0x00 | 0x02 | 0x04 | 0x06 | 0x08 if second != 0 => return refused(21, 1),
        0x00 => Message::NoOperation { length: number },
        0x02 if !server => return refused(23, 0),
        0x02 => Message::Shutdown { length: number },
        0x04 => Message::Ping { cookie: number },
        0x06 => Message::PingAck { cookie: number },
        0x08 => Message::Error { length: number },
        _ if first & 0xf1 != 0x10
            && first & 0xfd != 0x20
            && first != 0x30
            && first != 0x40
            && first & 0xe1 != 0x80 =>
        {
            return refused(20, 0)
        }
        // Every type that is left has a session.
        _ if second > 127 => return refused(21, 1),
        _ if first & 0xf1 == 0x10 => Message::IncrementRation {
            shift: first >> 1 & 7,
            session: second,
            increment: number,
        },
        0x22 if !server => return refused(24, 0),
        0x20 | 0x22 => Message::Abort {
            partial: first == 0x22,
            session: second,
            length: number,
        },
        0x30 | 0x40 if number > 255 => return refused(21, 2),
        0x30 | 0x40 if number > 0 => return refused(21, 3),
        0x30 if !server => return refused(23, 0),
        0x30 => Message::Close { session: second },
        0x40 if server => return refused(23, 0),
        0x40 => Message::Acknowledgment { session: second },
        _ => {
            let (open, close) = (first & 16 != 0, first & 8 != 0);
            let (eof, ack_required) = (first & 4 != 0, first & 2 != 0);
            if open && server || (close || ack_required) && !(server && eof) {
                return refused(24, 0);
            }
            Message::Data {
                open,
                close,
                eof,
                ack_required,
                session: second,
                length: number,
            }
        }
    };
    let size = 4 + message.body();
    if rest.len() < size {
        return refused(10, 0);
    }
    Ok((message, place + size))
}
