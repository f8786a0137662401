//! Refusals and violations: the numbers of docs/PROTOCOL.md, each under a plain name, and a violation's place.

use std::fmt;

pub const NOT_UP: u8 = 1;
pub const OVER: u8 = 2;
pub const NUMBER: u8 = 3;
pub const ROLE: u8 = 4;
pub const SIDE: u8 = 5;
pub const FULL: u8 = 6;
pub const GRANT_SUM: u8 = 7;
pub const ROOM: u8 = 8;
pub const NONE_READY: u8 = 9;
pub const INCOMPLETE: u8 = 10;
pub const VALUE: u8 = 12;
pub const PING_OUT: u8 = 13;
pub const MALFORMED: u8 = 14;
pub const FIRST_BYTE: u8 = 20;
pub const RESERVED: u8 = 21;
pub const BAD_HEADER: u8 = 22;
pub const SENDER: u8 = 23;
pub const FLAGS: u8 = 24;
pub const STATE: u8 = 25;
pub const INBOUND: u8 = 26;
pub const OUTBOUND: u8 = 27;
pub const PINGACK: u8 = 28;

/// From this number up a refusal is a protocol violation and makes the connection over.
pub const FIRST_VIOLATION: u8 = 20;

/// A protocol violation: its number, and the place of the byte at fault in the message or header, from 0.
///
/// A message can have 65,539 bytes, so a place does not always fit a byte.
#[derive(Clone, Copy, Debug, PartialEq, Eq, PartialOrd, Ord)]
pub struct Violation {
    pub number: u8,
    pub place: u32,
}

/// The violations that always have the same place: that of the first byte, which tells type and flags, that of
/// the session number, or that of the high byte of the length, increment or cookie.
impl Violation {
    pub const FIRST_BYTE: Violation = Violation::new(FIRST_BYTE, 0);
    pub const SENDER: Violation = Violation::new(SENDER, 0);
    pub const FLAGS: Violation = Violation::new(FLAGS, 0);
    pub const STATE: Violation = Violation::new(STATE, 1);
    pub const INBOUND: Violation = Violation::new(INBOUND, 2);
    pub const OUTBOUND: Violation = Violation::new(OUTBOUND, 2);
    pub const PINGACK: Violation = Violation::new(PINGACK, 2);

    /// Gives the violation of this number at this place.
    pub const fn new(number: u8, place: u32) -> Violation {
        Violation { number, place }
    }
}

/// Why a call is refused.
#[derive(Clone, Copy, Debug, PartialEq, Eq)]
pub enum Refusal {
    /// A number below 20; it has no place, and nothing changes.
    Plain(u8),
    /// A number from 20 up, with its place; only receive finds one.
    Violation(Violation),
}

impl Refusal {
    /// Gives the number of the refusal.
    pub fn number(self) -> u8 {
        match self {
            Refusal::Plain(number) => number,
            Refusal::Violation(violation) => violation.number,
        }
    }
}

impl From<u8> for Refusal {
    /// Makes a refusal of a number below 20.
    fn from(number: u8) -> Refusal {
        debug_assert!(number < FIRST_VIOLATION, "{number} has a place");
        Refusal::Plain(number)
    }
}

impl From<Violation> for Refusal {
    fn from(violation: Violation) -> Refusal {
        Refusal::Violation(violation)
    }
}

impl fmt::Display for Refusal {
    /// Writes what docs/SCRIPTS.md prints after `refused`.
    fn fmt(&self, f: &mut fmt::Formatter<'_>) -> fmt::Result {
        match self {
            Refusal::Plain(number) => write!(f, "{number}"),
            Refusal::Violation(Violation { number, place }) => write!(f, "{number} at {place}"),
        }
    }
}

/// Every number of a refusal or violation of docs/PROTOCOL.md, with its meaning in a few words.
pub const ALL: [(u8, &str); 22] = [
    (NOT_UP, "headers not yet exchanged"),
    (OVER, "connection over"),
    (NUMBER, "number above 127"),
    (ROLE, "call of the other role, or partial from a client"),
    (SIDE, "side not as the call needs, or start twice"),
    (FULL, "put of more than fits"),
    (GRANT_SUM, "grant to an endless ration or past the largest"),
    (ROOM, "room too small, or queue of the wrong length"),
    (NONE_READY, "turn with no number ready"),
    (INCOMPLETE, "message or header not all there"),
    (VALUE, "grant of 0 or above 65,535"),
    (PING_OUT, "a ping is outstanding"),
    (MALFORMED, "state not well formed, or writer's bad value"),
    (FIRST_BYTE, "first byte"),
    (RESERVED, "reserved bits"),
    (BAD_HEADER, "bad connection header"),
    (SENDER, "wrong sender"),
    (FLAGS, "flags"),
    (STATE, "wrong state"),
    (INBOUND, "length above the inbound ration"),
    (OUTBOUND, "outbound ration past its largest"),
    (PINGACK, "PingAck that matches no ping"),
];

/// The refusal numbers that no script can reach, with the reason.
pub const UNREACHABLE: [(u8, &str); 1] = [(
    MALFORMED,
    "a script cannot write the engine's state, and has no call for the message writer",
)];

/// The refusals that each call can give in a script, in the order of `script::WORDS`.
pub const BY_CALL: [&[u8]; 12] = [
    &[OVER, ROLE, SIDE, ROOM],
    &[NOT_UP, OVER, NUMBER, ROLE, SIDE],
    &[NOT_UP, OVER, NUMBER, SIDE, FULL, ROOM],
    &[NOT_UP, OVER, NUMBER, SIDE],
    &[NOT_UP, OVER, ROOM, NONE_READY],
    &[NOT_UP, OVER, NUMBER, SIDE, GRANT_SUM, ROOM, VALUE],
    &[NOT_UP, OVER, NUMBER, ROLE, SIDE, ROOM],
    &[NOT_UP, OVER, NUMBER, ROLE, SIDE, ROOM],
    &[NOT_UP, OVER, ROOM, PING_OUT],
    &[NOT_UP, OVER, ROLE, ROOM],
    &[OVER],
    &[
        NOT_UP, OVER, ROOM, INCOMPLETE, FIRST_BYTE, RESERVED, BAD_HEADER, SENDER, FLAGS, STATE,
        INBOUND, OUTBOUND, PINGACK,
    ],
];

/// Every violation's number with the places that it can have.
pub const PLACES: [(u8, &[u32]); 9] = [
    (FIRST_BYTE, &[0]),
    (RESERVED, &[1, 2, 3]),
    (BAD_HEADER, &[0, 1, 2, 3, 4, 7]),
    (SENDER, &[0]),
    (FLAGS, &[0]),
    (STATE, &[1]),
    (INBOUND, &[2]),
    (OUTBOUND, &[2]),
    (PINGACK, &[2]),
];

#[cfg(test)]
mod tests {
    use super::*;

    #[test]
    fn only_violations_are_written_with_a_place() {
        assert_eq!(Refusal::from(INCOMPLETE).to_string(), "10");
        assert_eq!(Refusal::from(Violation::INBOUND).to_string(), "26 at 2");
    }

    #[test]
    fn a_place_can_be_that_of_the_last_byte_of_the_longest_message() {
        let violation = Violation::new(RESERVED, 65_538);
        assert_eq!(Refusal::from(violation).to_string(), "21 at 65538");
    }

    #[test]
    fn every_violation_has_places_and_no_other_refusal_has() {
        let numbers = ALL.iter().map(|(number, _)| *number);
        let violations = numbers.filter(|number| *number >= FIRST_VIOLATION);
        assert!(violations.eq(PLACES.iter().map(|(number, _)| *number)));
    }
}
