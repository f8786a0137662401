//! The places that the readers give, by the layouts of the published protocol written out as bit patterns.

use super::*;

/// The four bytes that begin a message of each type; `x` stands for a bit that may be either 0 or 1.
const LAYOUTS: [[&str; 4]; 10] = [
    ["00000000", "00000000", "xxxxxxxx", "xxxxxxxx"],
    ["00000010", "00000000", "xxxxxxxx", "xxxxxxxx"],
    ["00000100", "00000000", "xxxxxxxx", "xxxxxxxx"],
    ["00000110", "00000000", "xxxxxxxx", "xxxxxxxx"],
    ["00001000", "00000000", "xxxxxxxx", "xxxxxxxx"],
    ["0001xxx0", "0xxxxxxx", "xxxxxxxx", "xxxxxxxx"],
    ["001000x0", "0xxxxxxx", "xxxxxxxx", "xxxxxxxx"],
    ["00110000", "0xxxxxxx", "00000000", "00000000"],
    ["01000000", "0xxxxxxx", "00000000", "00000000"],
    ["100xxxx0", "0xxxxxxx", "xxxxxxxx", "xxxxxxxx"],
];

/// The bytes of a connection header.
const HEADER_LAYOUT: [&str; 8] = [
    "01001010", "01101101", "01110101", "01111000", "00000001", "xxxxxxxx", "xxxxxxxx", "00000000",
];

/// Gives the place of the first byte that does not have the bits of its pattern.
fn first_misfit(bytes: &[u8], layout: &[&str]) -> Option<u32> {
    let misfit = bytes.iter().zip(layout).position(|(b, p)| !fits(*b, p));
    misfit.map(|place| place as u32)
}

/// Gives what a reader has to answer to a connection header.
fn wanted_of(header: [u8; 8]) -> Result<u16, Refusal> {
    match first_misfit(&header, &HEADER_LAYOUT) {
        Some(place) => at(22, place),
        None => Ok(u16::from_be_bytes([header[5], header[6]])),
    }
}

/// Gives starts of messages with this first byte: all second bytes, and edges of the two behind it.
fn starts(first: u8) -> impl Iterator<Item = [u8; 4]> {
    let edges = [0, 1, 0x80, 0xFF];
    let pairs = edges
        .into_iter()
        .flat_map(move |high| edges.map(|low| (high, low)));
    pairs.flat_map(move |(high, low)| (0..=255).map(move |second| [first, second, high, low]))
}

/// Asks that a start is read as its layout says: 21 at the first misfit, or no 21 and the same bytes back.
fn ask(start: [u8; 4], sender: Role, layout: &[&str; 4]) {
    let answer = Message::read(&start, sender);
    match (first_misfit(&start, layout), answer) {
        (Some(place), answer) => assert_eq!(answer, at(21, place), "{start:02x?}"),
        (None, Ok(message)) => assert_eq!(message.start(), start),
        (None, Err(refusal)) => assert_ne!(refusal.number(), 21, "{start:02x?}"),
    }
}

#[test]
fn reserved_bits_of_every_type() {
    for first in (0..=255u8).filter(|first| pattern_allows(*first)) {
        let layout = LAYOUTS.iter().find(|layout| fits(first, layout[0]));
        for start in starts(first) {
            ask(start, Role::Client, layout.unwrap());
            ask(start, Role::Server, layout.unwrap());
        }
    }
}

#[test]
fn a_first_byte_of_no_type_is_told_before_the_bytes_behind_it() {
    for first in (0..=255u8).filter(|first| !pattern_allows(*first)) {
        for rest in [[0, 0, 0], [0x80, 0, 0], [0xFF, 0xFF, 0xFF]] {
            let start = [first, rest[0], rest[1], rest[2]];
            assert_eq!(Message::read(&start, Role::Client), at(20, 0));
            assert_eq!(Message::read(&start, Role::Server), at(20, 0));
        }
    }
}

#[test]
fn every_single_bit_of_a_header() {
    let good = write_header(0x1234);
    for place in 0..8 {
        for bit in 0..8 {
            let mut header = good;
            header[place] ^= 1 << bit;
            let answer = read_header(&header);
            assert_eq!(answer, wanted_of(header), "place {place}");
            assert_eq!(answer.is_ok(), place == 5 || place == 6);
        }
    }
}

#[test]
fn the_first_of_several_wrong_bytes_of_a_header() {
    for wrong in 1..=255u8 {
        let mut header = write_header(4);
        for (place, byte) in header.iter_mut().enumerate() {
            *byte ^= (wrong >> place) & 1;
        }
        assert_eq!(read_header(&header), wanted_of(header), "{header:02x?}");
        assert_eq!(read_header(&header[..7]), cut());
    }
}

#[test]
fn every_header_number_is_right() {
    for number in 0..=65_535 {
        let mut header = write_header(number);
        assert_eq!(read_header(&header), Ok(number));
        header[7] = 1;
        assert_eq!(read_header(&header), at(22, 7));
    }
}
