//! Noise: messages, headers and script lines that are cut, damaged or out of place.

mod wrong;

pub use wrong::{wrong_header, wrong_message, Wrong, WRONGS};

use crate::engine::Engine;
use crate::pick;
use crate::ration::Ration;
use crate::refusal::Violation;
use crate::rng::Rng;
use crate::script::{self, Call};
use crate::session::Session;
use crate::wire::{self, Data, Message, Role};

/// Gives input for receive that is most likely a violation, at times of two rules at once.
pub fn bad_message(rng: &mut Rng, engine: &Engine, pool: &[u8]) -> Vec<u8> {
    let mut bytes = one_fault(rng, engine, pool);
    if rng.percent(12) {
        bytes.truncate(rng.below(bytes.len() as u64) as usize);
    }
    if bytes.len() > 3 && rng.percent(8) {
        let place = rng.between(0, 3) as usize;
        bytes[place] ^= 1 << rng.below(8);
    }
    bytes
}

/// Gives input for receive that most likely breaks one rule.
fn one_fault(rng: &mut Rng, engine: &Engine, pool: &[u8]) -> Vec<u8> {
    let id = rng.one_of(pool);
    match rng.below(20) {
        0 => any_start(rng, pool),
        1 => flipped(rng, engine, pool),
        2 => reserved(rng, engine, pool),
        3 => unfiltered(rng, engine, pool),
        4..=7 => in_wrong_state(rng, engine, pool),
        8 | 9 => above_ration(rng, engine, pool),
        10 => past_the_brim(rng, engine, id),
        11 => with_wrong_cookie(rng, engine),
        12..=14 => wrong_sender_or_flags(rng, id),
        15 | 16 => last_message(rng),
        17 | 18 => long_data(rng, engine, id),
        _ => to_any_number(rng, engine),
    }
}

/// Gives any first byte, with a number of the pool and a body that fits or not.
fn any_start(rng: &mut Rng, pool: &[u8]) -> Vec<u8> {
    let first = rng.byte();
    let number = rng.one_of(&[0, 0, 0, 1, 3, 256]);
    with_first_byte(rng, pool, first, number)
}

/// Gives a message with this first byte and this length, mostly with a body of that length.
pub fn with_first_byte(rng: &mut Rng, pool: &[u8], first: u8, number: u16) -> Vec<u8> {
    let zero = first < 0x10 || rng.percent(10);
    let id = if zero { 0 } else { rng.one_of(pool) };
    let mut bytes = vec![first, id, (number >> 8) as u8, number as u8];
    let body = if rng.percent(80) { number } else { 0 };
    bytes.extend(rng.bytes(usize::from(body)));
    bytes
}

/// Gives a fit message with one bit changed in its first four bytes.
fn flipped(rng: &mut Rng, engine: &Engine, pool: &[u8]) -> Vec<u8> {
    let mut bytes = pick::good_message(rng, engine, pool);
    let place = rng.below(4) as usize;
    bytes[place] ^= 1 << rng.below(8);
    bytes
}

/// Gives a message with a reserved bit set in its second to fourth byte.
fn reserved(rng: &mut Rng, engine: &Engine, pool: &[u8]) -> Vec<u8> {
    let mut bytes = pick::good_message(rng, engine, pool);
    match bytes[0] {
        0x30 | 0x40 => bytes[1 + rng.below(3) as usize] |= 0x80,
        first if first < 0x10 => bytes[1] = 1 << rng.below(8),
        _ => bytes[1] |= 0x80,
    }
    bytes
}

/// Gives a well-formed message without asking whether the state allows it.
fn unfiltered(rng: &mut Rng, engine: &Engine, pool: &[u8]) -> Vec<u8> {
    let message = pick::any_message(rng, engine, pool);
    pick::with_body(rng, &message)
}

/// Gives a well-formed message that the state does not allow, if a few trials find one.
fn in_wrong_state(rng: &mut Rng, engine: &Engine, pool: &[u8]) -> Vec<u8> {
    for _ in 0..20 {
        let message = pick::session_message(rng, engine, pool);
        let bytes = pick::with_body(rng, &message);
        let answer = engine.clone().receive(&bytes, 12, &mut Vec::new());
        if answer == Err(Violation::STATE.into()) {
            return bytes;
        }
    }
    unfiltered(rng, engine, pool)
}

/// Gives a well-formed message to any number, mostly an idle one.
fn to_any_number(rng: &mut Rng, engine: &Engine) -> Vec<u8> {
    let all: Vec<u8> = (0..128).collect();
    unfiltered(rng, engine, &all)
}

/// Gives Data of exactly the inbound ration plus one, or of exactly the ration.
fn above_ration(rng: &mut Rng, engine: &Engine, pool: &[u8]) -> Vec<u8> {
    let counted = pick::id_where(rng, engine, pool, Engine::inbound_counts);
    let unused = pick::id_where(rng, engine, pool, Session::may_be_opened);
    let start = Ration::from_header(engine.header);
    let (id, open, ration) = match (counted, unused) {
        (Some(id), None) => (id, false, engine.sessions[usize::from(id)].inbound),
        (Some(id), _) if rng.percent(60) => (id, false, engine.sessions[usize::from(id)].inbound),
        (_, Some(id)) => (id, engine.role == Role::Server, start),
        _ => (rng.one_of(pool), false, start),
    };
    let length = match ration {
        Ration::Finite(left) if left < 65_535 => left + u32::from(rng.percent(80)),
        _ => 65_535,
    };
    let data = Data {
        id,
        open,
        length: length as u16,
        ..Data::default()
    };
    pick::with_body(rng, &Message::Data(data))
}

/// Gives Data longer than the header's ration, in the right state or not.
fn long_data(rng: &mut Rng, engine: &Engine, id: u8) -> Vec<u8> {
    let length = match Ration::from_header(engine.header) {
        Ration::Finite(start) if start < 65_535 => start + 1,
        _ => 300,
    };
    let data = Data {
        id,
        open: engine.role == Role::Server && rng.percent(60),
        eof: rng.percent(30),
        length: length as u16,
        ..Data::default()
    };
    pick::with_body(rng, &Message::Data(data))
}

/// Gives an increment that would bring the outbound ration one past its largest.
fn past_the_brim(rng: &mut Rng, engine: &Engine, id: u8) -> Vec<u8> {
    let message = match pick::brim_increment(engine, id) {
        Some(Message::Increment {
            id,
            shift,
            increment,
        }) if increment < 65_535 => Message::Increment {
            id,
            shift,
            increment: increment + 1,
        },
        _ => Message::Increment {
            id,
            shift: 7,
            increment: 65_535,
        },
    };
    pick::with_body(rng, &message)
}

/// Gives a PingAck whose cookie is not the outstanding one.
fn with_wrong_cookie(rng: &mut Rng, engine: &Engine) -> Vec<u8> {
    let cookie = match engine.ping {
        Some(cookie) => cookie ^ (1 << rng.below(16)),
        None => rng.short(),
    };
    Message::PingAck { cookie }.start().to_vec()
}

/// Gives a message of a type or with flags that one of the two ends must not send.
fn wrong_sender_or_flags(rng: &mut Rng, id: u8) -> Vec<u8> {
    let flags = rng.below(16) as u8;
    let first = match rng.below(6) {
        0 => 0x02,
        1 => 0x30,
        2 => 0x40,
        3 => 0x22,
        _ => 0x80 | (flags << 1),
    };
    let id = if first == 0x02 { 0 } else { id };
    let missing = rng.one_of(&[0, 0, 0, 5]);
    vec![first, id, 0, missing]
}

/// Gives a message that ends the connection, with a detail.
pub fn last_message(rng: &mut Rng) -> Vec<u8> {
    let length = rng.below(6) as u16;
    let message = if rng.percent(50) {
        Message::Shutdown { length }
    } else {
        Message::Error { length }
    };
    pick::with_body(rng, &message)
}

/// Gives a connection header with some bits changed, or random bytes.
pub fn bad_header(rng: &mut Rng) -> Vec<u8> {
    let mut bytes = wire::write_header(rng.short()).to_vec();
    match rng.below(4) {
        0 => bytes = rng.bytes(8),
        1 => bytes[4] = rng.one_of(&[0, 2, 0x81, 0xFF]),
        2 => bytes[7] = 1 << rng.below(8),
        _ => bytes[rng.below(5) as usize] ^= 1 << rng.below(8),
    }
    bytes
}

/// Gives a line that is most likely a script error.
pub fn bad_line(rng: &mut Rng, pool: &[u8]) -> Vec<u8> {
    let mut line = Vec::new();
    let call = pick::wild_call(rng, pool, true);
    call.write(&mut line);
    match rng.below(20) {
        0..=2 => line.push(rng.one_of(b"  \t\r\r\0\0~\x7f\xffaG0")),
        3 => line.insert(0, rng.one_of(b" \t\0")),
        4 => insert_somewhere(rng, &mut line),
        5 => line.make_ascii_uppercase(),
        6 => line.extend_from_slice(b" 66001"),
        7 => line.extend_from_slice(b" 600 600"),
        8 => cut_last_word(&mut line),
        9 => line = long_line(rng),
        10 => line = rng.bytes(20),
        _ => line = rng.one_of(&BAD_LINES).to_vec(),
    }
    line.retain(|&byte| byte != b'\n');
    line
}

/// Gives a first line that is a script error.
pub fn bad_first_line(rng: &mut Rng) -> Vec<u8> {
    rng.one_of(&BAD_FIRST_LINES).to_vec()
}

/// Gives a call at the edge of what the script language allows.
pub fn edge_line(rng: &mut Rng) -> Vec<u8> {
    let mut line = Vec::new();
    match rng.below(16) {
        0 => Call::Put {
            id: 5,
            bytes: vec![9; script::LARGEST_PUT],
        }
        .write(&mut line),
        1 => Call::Receive {
            bytes: vec![0; script::LARGEST_RECEIVE],
            room: Some(script::LARGEST_ROOM),
        }
        .write(&mut line),
        _ => line = rng.one_of(&EDGE_LINES).to_vec(),
    }
    line
}

/// Adds a byte somewhere that may or may not be one of the language.
pub fn insert_somewhere(rng: &mut Rng, line: &mut Vec<u8>) {
    let place = rng.below(line.len() as u64 + 1) as usize;
    line.insert(place, rng.one_of(b" \t\r\0f7-A#\x80"));
}

/// Takes the last word away, with the space before it.
pub fn cut_last_word(line: &mut Vec<u8>) {
    let end = line.iter().rposition(|&byte| byte == b' ').unwrap_or(0);
    line.truncate(end);
}

/// Gives bytes just past what put and receive take, or a word that is long.
fn long_line(rng: &mut Rng) -> Vec<u8> {
    let mut line = Vec::new();
    match rng.below(3) {
        0 => Call::Put {
            id: 1,
            bytes: vec![7; 1025],
        }
        .write(&mut line),
        1 => {
            line.extend_from_slice(b"grant 1 ");
            line.extend(vec![b'1'; rng.between(10, 400) as usize]);
        }
        _ => Call::Receive {
            bytes: vec![0; 66_001],
            room: None,
        }
        .write(&mut line),
    }
    line
}

/// First lines that are script errors, each by another rule.
pub(crate) const BAD_FIRST_LINES: [&[u8]; 20] = [
    b"client",
    b"client ",
    b"client  4",
    b" client 4",
    b"client 4 ",
    b"client 65536",
    b"client 04",
    b"client -4",
    b"client 4 queue",
    b"client 4 queue ",
    b"client 4 queue 70001",
    b"client 4 queue 1 1",
    b"client 4 Queue 1",
    b"client 4 600",
    b"CLIENT 4",
    b"peer 4",
    b"server 4\r",
    b"server\t4",
    b"state",
    b"start",
];

/// Calls whose numbers or bytes are the largest or smallest that are allowed.
const EDGE_LINES: [&[u8]; 17] = [
    b"start 0",
    b"start 66000",
    b"open 0",
    b"open 255",
    b"put 0 -",
    b"put 127 00",
    b"finish 255",
    b"turn 66000",
    b"grant 0 999999999",
    b"grant 255 0 0",
    b"abort 0 whole 0",
    b"abort 127 partial 66000",
    b"close 0",
    b"ping 65535 66000",
    b"receive - 66000",
    b"queue 0",
    b"queue 255",
];

/// Lines that are script errors, each by another rule.
pub(crate) const BAD_LINES: [&[u8]; 26] = [
    b"client 4",
    b"server 0",
    b"start 66001",
    b"start 0600",
    b"open",
    b"open 256",
    b"open 5 600",
    b"put 5",
    b"put 5 ",
    b"put 5 616",
    b"put 5 AB",
    b"put 5 -61",
    b"put 5 61 600",
    b"finish 00",
    b"grant 5",
    b"grant 5 1000000000",
    b"grant 5 +1",
    b"abort 5",
    b"abort 5 600",
    b"abort 5 partly",
    b"ping 65536",
    b"lost 600",
    b"receive",
    b"receive - -",
    b"queue 256",
    b"state 1",
];
