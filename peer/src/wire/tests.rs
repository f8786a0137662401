use super::*;

mod places;

/// Gives the answer of a reader that finds too few bytes.
fn cut<T>() -> Result<T, Refusal> {
    Err(Refusal::Plain(10))
}

/// Gives the answer of a reader that finds a violation.
fn at<T>(number: u8, place: u32) -> Result<T, Refusal> {
    Err(Refusal::Violation(Violation { number, place }))
}

#[test]
fn case_1_headers() {
    let good = [0x4A, 0x6D, 0x75, 0x78, 0x01, 0x00, 0x04, 0x00];
    assert_eq!(read_header(&good), Ok(4));
    assert_eq!(write_header(4), good);
    assert_eq!(read_header(&good[..7]), cut());
    let bad = [0x4A, 0x6D, 0x75, 0x78, 0x02, 0x00, 0x04, 0x00];
    assert_eq!(read_header(&bad), at(22, 4));
}

#[test]
fn a_cut_bad_header_is_only_cut() {
    assert_eq!(read_header(&[1, 2, 3]), cut());
}

#[test]
fn case_2_open_data() {
    let bytes = [0x90, 5, 0, 3, 0x61, 0x62, 0x63];
    let data = Data {
        id: 5,
        open: true,
        length: 3,
        ..Data::default()
    };
    let message = Message::read(&bytes, Role::Client);
    assert_eq!(message, Ok(Message::Data(data)));
    assert_eq!(Message::read(&bytes[..6], Role::Client), cut());
    assert_eq!(Message::read(&bytes, Role::Server), at(24, 0));
}

#[test]
fn case_3_starts() {
    let abort = Message::Abort {
        id: 7,
        partial: true,
        length: 0,
    };
    assert_eq!(Message::read(&[0x22, 7, 0, 0], Role::Server), Ok(abort));
    assert_eq!(Message::read(&[0x22, 7, 0, 0], Role::Client), at(24, 0));
    let close = Message::Close { id: 7 };
    assert_eq!(Message::read(&[0x30, 7, 0, 0], Role::Server), Ok(close));
    assert_eq!(Message::read(&[0x30, 7, 0, 0], Role::Client), at(23, 0));
    assert_eq!(Message::read(&[1, 0, 0, 0], Role::Client), at(20, 0));
    assert_eq!(Message::read(&[4, 0x80, 0, 0], Role::Client), at(21, 1));
}

#[test]
fn checks_go_in_order() {
    // A close from a client with a reserved bit is 21; cut bodies with bad flags are 24.
    assert_eq!(Message::read(&[0x30, 0x87, 0, 0], Role::Client), at(21, 1));
    assert_eq!(Message::read(&[0x30, 7, 0, 1], Role::Client), at(21, 3));
    assert_eq!(Message::read(&[0x02, 0, 0, 9], Role::Client), at(23, 0));
    assert_eq!(Message::read(&[0x22, 7, 0, 9], Role::Client), at(24, 0));
    assert_eq!(Message::read(&[0x21, 0x87, 0], Role::Client), cut());
}

#[test]
fn lengths_are_unsigned() {
    let message = Message::read(&[0, 0, 0x80, 0], Role::Client);
    assert_eq!(message, cut());
    let mut bytes = vec![0; 4 + 0x8000];
    bytes[2] = 0x80;
    let whole = Message::read(&bytes, Role::Client);
    assert_eq!(whole, Ok(Message::NoOperation { length: 0x8000 }));
}

#[test]
fn increments_shift_by_two() {
    let bytes = [0x1E, 9, 0xFF, 0xFF];
    let message = Message::read(&bytes, Role::Client);
    let wanted = Message::Increment {
        id: 9,
        shift: 7,
        increment: 65535,
    };
    assert_eq!(message, Ok(wanted));
    assert_eq!(effective(7, 65535), 1_073_725_440);
    assert_eq!(effective(0, 3), 3);
}

/// Tells whether a byte has the bits of a pattern, in which `x` stands for either.
fn fits(byte: u8, pattern: &str) -> bool {
    let bits = format!("{byte:08b}");
    let mut pairs = pattern.chars().zip(bits.chars());
    pairs.all(|(wanted, bit)| wanted == 'x' || wanted == bit)
}

/// Tells by the published table of bit patterns whether a first byte is allowed.
fn pattern_allows(first: u8) -> bool {
    let patterns = [
        "00000000", "00000010", "00000100", "00000110", "00001000", "0001xxx0", "001000x0",
        "00110000", "01000000", "100xxxx0",
    ];
    patterns.iter().any(|pattern| fits(first, pattern))
}

#[test]
fn every_first_byte() {
    for first in 0..=255u8 {
        for sender in [Role::Client, Role::Server] {
            let answer = Message::read(&[first, 0, 0, 0], sender);
            assert_eq!(answer == at(20, 0), !pattern_allows(first), "{first:02x}");
            if let Ok(message) = answer {
                assert_eq!(message.start(), [first, 0, 0, 0]);
            }
        }
    }
}

#[test]
fn flags_by_sender() {
    for first in (0x80..=0x9Eu8).step_by(2) {
        let (open, close, eof, ack) = (
            first & 0x10 != 0,
            first & 0x08 != 0,
            first & 0x04 != 0,
            first & 0x02 != 0,
        );
        let client = Message::read(&[first, 0, 0, 0], Role::Client);
        assert_eq!(client == at(24, 0), close || ack);
        let server = Message::read(&[first, 0, 0, 0], Role::Server);
        assert_eq!(server == at(24, 0), open || ((close || ack) && !eof));
    }
}
