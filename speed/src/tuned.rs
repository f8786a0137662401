//! A reader written for speed: one load for the header, Data first, each type's rules in its own
//! arm, and a reader for each sender.
use crate::message::{Message, Refused, Sender, Step};

/// The flags of Data that a sender may set, a bit for each of the 16 values of the four flag bits.
const CLIENT_FLAGS: u32 = 1 | 1 << 2 | 1 << 8 | 1 << 10;
const SERVER_FLAGS: u32 = 1 | 1 << 2 | 1 << 3 | 1 << 6 | 1 << 7;

#[inline(always)]
fn refused(number: u8) -> Step {
    Err(Refused { number, place: 0 })
}

#[inline(always)]
fn reserved(place: u8) -> Step {
    Err(Refused { number: 21, place })
}

#[inline(always)]
fn whole(message: Message, rest: &[u8], place: usize, length: u16) -> Step {
    let size = 4 + usize::from(length);
    if size > rest.len() {
        return refused(10);
    }
    Ok((message, place + size))
}

#[inline(always)]
pub fn read_at(capture: &[u8], from: Sender, place: usize) -> Step {
    match from {
        Sender::Client => read_from::<false>(capture, place),
        Sender::Server => read_from::<true>(capture, place),
    }
}

/// The message from one sender at a place of a capture, and the place after it.
#[inline(always)]
pub fn read_from<const SERVER: bool>(capture: &[u8], place: usize) -> Step {
    let Some(rest) = capture.get(place..) else {
        return refused(14);
    };
    let Some(header) = rest.first_chunk::<4>() else {
        return refused(10);
    };
    let word = u32::from_be_bytes(*header);
    if word & 0xe180_0000 != 0x8000_0000 {
        return other::<SERVER>(rest, place, word);
    }
    let flags = word >> 25 & 15;
    let allowed = if SERVER { SERVER_FLAGS } else { CLIENT_FLAGS };
    if allowed >> flags & 1 == 0 {
        return refused(24);
    }
    let length = word as u16;
    let message = Message::Data {
        open: flags & 8 != 0,
        close: flags & 4 != 0,
        eof: flags & 2 != 0,
        ack_required: flags & 1 != 0,
        session: (word >> 16) as u8,
        length,
    };
    whole(message, rest, place, length)
}

/// A message that is not Data, or Data with a reserved bit.
#[inline(always)]
fn other<const SERVER: bool>(rest: &[u8], place: usize, word: u32) -> Step {
    let (first, second, number) = ((word >> 24) as u8, (word >> 16) as u8, word as u16);
    match first {
        0x00 | 0x02 | 0x04 | 0x06 | 0x08 if second != 0 => reserved(1),
        0x00 => whole(Message::NoOperation { length: number }, rest, place, number),
        0x02 if !SERVER => refused(23),
        0x02 => whole(Message::Shutdown { length: number }, rest, place, number),
        0x04 => whole(Message::Ping { cookie: number }, rest, place, 0),
        0x06 => whole(Message::PingAck { cookie: number }, rest, place, 0),
        0x08 => whole(Message::Error { length: number }, rest, place, number),
        0x10 | 0x12 | 0x14 | 0x16 | 0x18 | 0x1a | 0x1c | 0x1e if second < 128 => {
            let message = Message::IncrementRation {
                shift: first >> 1 & 7,
                session: second,
                increment: number,
            };
            whole(message, rest, place, 0)
        }
        0x22 if second < 128 && !SERVER => refused(24),
        0x20 | 0x22 if second < 128 => {
            let message = Message::Abort {
                partial: first == 0x22,
                session: second,
                length: number,
            };
            whole(message, rest, place, number)
        }
        0x30 | 0x40 if second < 128 && number != 0 => reserved(if number > 255 { 2 } else { 3 }),
        0x30 if second < 128 && !SERVER => refused(23),
        0x30 if second < 128 => whole(Message::Close { session: second }, rest, place, 0),
        0x40 if second < 128 && SERVER => refused(23),
        0x40 if second < 128 => whole(Message::Acknowledgment { session: second }, rest, place, 0),
        // Every type that is left has a session, and byte 1 is above 127.
        _ if matches!(first, 0x20 | 0x22 | 0x30 | 0x40)
            || first & 0xf1 == 0x10
            || first & 0xe1 == 0x80 =>
        {
            reserved(1)
        }
        _ => refused(20),
    }
}
