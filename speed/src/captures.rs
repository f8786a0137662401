//! Captures: those that are timed, and random ones.
use crate::message::Sender;

/// How many bytes a capture has that is timed: 48 KiB.
pub const SIZE: usize = 49_152;

/// The connection header in front of the messages, which no reader here looks at.
const HEADER: [u8; 8] = [0x4a, 0x6d, 0x75, 0x78, 1, 0, 4, 0];

/// A generator of numbers that are the same in each run (xorshift).
pub struct Numbers(u64);

impl Numbers {
    pub fn new(seed: u64) -> Numbers {
        Numbers(seed.wrapping_mul(0x9e37_79b9_7f4a_7c15) | 1)
    }

    pub fn next(&mut self) -> u64 {
        self.0 ^= self.0 << 13;
        self.0 ^= self.0 >> 7;
        self.0 ^= self.0 << 17;
        self.0
    }

    /// A number below a limit.
    pub fn below(&mut self, limit: usize) -> usize {
        (self.next() >> 16) as usize % limit
    }

    fn byte(&mut self) -> u8 {
        self.below(256) as u8
    }
}

/// A first byte of a type that a sender may send, each type as often as any other, with flags that
/// it may set.
fn first_byte(numbers: &mut Numbers, from: Sender) -> u8 {
    let increment = 0x10 + 2 * numbers.below(8) as u8;
    let (abort, data, others): (u8, &[u8], &[u8]) = match from {
        Sender::Client => (0x20, &[0x80, 0x84, 0x90, 0x94], &[0x40]),
        Sender::Server => {
            let partial = 2 * numbers.below(2) as u8;
            (
                0x20 + partial,
                &[0x80, 0x84, 0x86, 0x8c, 0x8e],
                &[0x02, 0x30],
            )
        }
    };
    let data = data[numbers.below(data.len())];
    let shared = [0x00, 0x04, 0x06, 0x08, increment, abort, data];
    let which = numbers.below(shared.len() + others.len());
    *shared
        .get(which)
        .unwrap_or_else(|| &others[which - shared.len()])
}

/// Whether bytes follow the header of a type, as many as its bytes 2 and 3 say.
fn has_body(first: u8) -> bool {
    matches!(first, 0x00 | 0x02 | 0x08 | 0x20 | 0x22 | 0x80..)
}

fn push_message(capture: &mut Vec<u8>, numbers: &mut Numbers, first: u8, body: usize) {
    let session = if first < 0x10 {
        0
    } else {
        numbers.byte() & 127
    };
    let number = match first {
        0x30 | 0x40 => [0, 0],
        _ if has_body(first) => (body as u16).to_be_bytes(),
        _ => [numbers.byte(), numbers.byte()],
    };
    capture.extend([first, session, number[0], number[1]]);
    if has_body(first) {
        capture.extend((0..body).map(|_| numbers.byte()));
    }
}

/// Fills a capture up with one NoOperation.
fn filled(mut capture: Vec<u8>) -> Vec<u8> {
    let left = SIZE - capture.len() - 4;
    capture.extend([0, 0, (left >> 8) as u8, left as u8]);
    capture.resize(SIZE, 0);
    capture
}

/// Data with this many bytes of payload each.
pub fn data(payload: usize, from: Sender) -> Vec<u8> {
    let mut numbers = Numbers::new(payload as u64);
    let mut capture = HEADER.to_vec();
    while capture.len() + 4 + payload + 4 <= SIZE {
        let opens = from == Sender::Client && capture.len() == HEADER.len();
        push_message(
            &mut capture,
            &mut numbers,
            if opens { 0x90 } else { 0x80 },
            payload,
        );
    }
    filled(capture)
}

/// All types that a sender may send, in random order, with 0 to 63 bytes of payload or detail.
pub fn mixed(from: Sender) -> Vec<u8> {
    let mut numbers = Numbers::new(48);
    let mut capture = HEADER.to_vec();
    while capture.len() + 4 + 63 + 4 <= SIZE {
        let (first, body) = (first_byte(&mut numbers, from), numbers.below(64));
        push_message(&mut capture, &mut numbers, first, body);
    }
    filled(capture)
}

/// 70,000 Pings with the largest cookie: the place passes 16 bits, and the sum 48.
pub fn long() -> Vec<u8> {
    let mut capture = HEADER.to_vec();
    capture.extend([0x04, 0x00, 0xff, 0xff].repeat(70_000));
    capture
}

/// A capture of up to 40 messages that a sender may send.
pub fn valid(numbers: &mut Numbers, from: Sender) -> Vec<u8> {
    let mut capture = HEADER.to_vec();
    for _ in 0..numbers.below(41) {
        let (first, body) = (first_byte(numbers, from), numbers.below(9));
        push_message(&mut capture, numbers, first, body);
    }
    capture
}

/// A capture with up to three bytes changed.
pub fn damaged(numbers: &mut Numbers, from: Sender) -> Vec<u8> {
    let mut capture = valid(numbers, from);
    for _ in 0..=numbers.below(3) {
        let place = numbers.below(capture.len());
        capture[place] = match numbers.below(3) {
            0 => numbers.byte(),
            1 => capture[place] ^ 1 << numbers.below(8),
            _ => first_byte(numbers, from),
        };
    }
    capture
}

/// A capture that ends anywhere.
pub fn cut(numbers: &mut Numbers, from: Sender) -> Vec<u8> {
    let mut capture = valid(numbers, from);
    capture.truncate(numbers.below(capture.len() + 1));
    capture
}

/// Up to 64 bytes of any value; one of four is 0, so that headers with reserved bytes come up.
pub fn random(numbers: &mut Numbers) -> Vec<u8> {
    let length = numbers.below(65);
    (0..length)
        .map(|_| {
            if numbers.below(4) == 0 {
                0
            } else {
                numbers.byte()
            }
        })
        .collect()
}
