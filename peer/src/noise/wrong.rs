//! Connection headers and messages whose bytes are wrong at chosen places.

use super::with_first_byte;
use crate::rng::Rng;
use crate::wire;

/// The input of which some bytes are wrong, with their places.
#[derive(Clone, Copy, Debug, PartialEq, Eq)]
pub enum Wrong {
    /// A connection header.
    Header(&'static [usize]),
    /// A message; the bytes are those with reserved bits.
    Message(&'static [usize]),
}

/// Each place that a violation of a header or of reserved bits can have, and several at once.
pub const WRONGS: [Wrong; 16] = [
    Wrong::Header(&[0]),
    Wrong::Message(&[1]),
    Wrong::Header(&[1]),
    Wrong::Message(&[2]),
    Wrong::Header(&[2]),
    Wrong::Message(&[3]),
    Wrong::Header(&[3]),
    Wrong::Message(&[1, 2]),
    Wrong::Header(&[4]),
    Wrong::Message(&[1, 3]),
    Wrong::Header(&[7]),
    Wrong::Message(&[2, 3]),
    Wrong::Header(&[1, 4]),
    Wrong::Message(&[1, 2, 3]),
    Wrong::Header(&[2, 7]),
    Wrong::Header(&[3, 4, 7]),
];

/// First bytes of all types, some with flags or a shift.
const FIRSTS: [u8; 16] = [
    0x00, 0x02, 0x04, 0x06, 0x08, 0x10, 0x1E, 0x20, 0x22, 0x30, 0x40, 0x80, 0x84, 0x8E, 0x90, 0x94,
];

/// First bytes of the types whose last two bytes are reserved.
const SHORT_FIRSTS: [u8; 2] = [0x30, 0x40];

/// Gives a connection header that is wrong at just these places.
pub fn wrong_header(rng: &mut Rng, places: &[usize]) -> Vec<u8> {
    let mut bytes = wire::write_header(rng.short()).to_vec();
    for &place in places {
        bytes[place] ^= rng.between(1, 255) as u8;
    }
    bytes
}

/// Gives a message with wrong reserved bits at just these places, of a type that has some there.
pub fn wrong_message(rng: &mut Rng, pool: &[u8], places: &[usize]) -> Vec<u8> {
    let first = match places {
        [1] => rng.one_of(&FIRSTS),
        _ => rng.one_of(&SHORT_FIRSTS),
    };
    let number = match first {
        0x30 | 0x40 => 0,
        _ => rng.one_of(&[0, 0, 1, 256]),
    };
    let mut bytes = with_first_byte(rng, pool, first, number);
    for &place in places {
        bytes[place] |= match (place, first) {
            (1, 0x10..) => 0x80,
            _ => rng.between(1, 255) as u8,
        };
    }
    bytes
}

#[cfg(test)]
mod tests {
    use super::*;
    use crate::refusal::{self, Violation};
    use crate::wire::{Message, Role};

    /// Gives places as a violation has them.
    fn as_told(places: &[usize]) -> Vec<u32> {
        places.iter().map(|place| *place as u32).collect()
    }

    #[test]
    fn headers_are_wrong_at_just_their_places() {
        let mut rng = Rng::new(5);
        for wrong in WRONGS.into_iter().cycle().take(4_000) {
            let Wrong::Header(places) = wrong else {
                continue;
            };
            let header = *wrong_header(&mut rng, places).first_chunk().unwrap();
            let told = as_told(places);
            assert!(wire::wrong_header_bytes(header).eq(told.iter().copied()));
            let violation = Violation::new(refusal::BAD_HEADER, told[0]);
            assert_eq!(wire::read_header(&header), Err(violation.into()));
        }
    }

    #[test]
    fn messages_are_wrong_at_just_their_places() {
        let mut rng = Rng::new(5);
        for wrong in WRONGS.into_iter().cycle().take(4_000) {
            let Wrong::Message(places) = wrong else {
                continue;
            };
            let bytes = wrong_message(&mut rng, &[5, 127], places);
            let start = *bytes.first_chunk().unwrap();
            let told = as_told(places);
            assert!(wire::wrong_reserved_bytes(start).eq(told.iter().copied()));
            let refused = Err(Violation::new(refusal::RESERVED, told[0]).into());
            assert_eq!(Message::read(&bytes, Role::Client), refused);
            assert_eq!(Message::read(&bytes, Role::Server), refused);
        }
    }
}
