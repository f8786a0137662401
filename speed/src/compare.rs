//! Holds the engine's reader to the two of Rust, message by message, on random captures, on those
//! that are timed, and on every first byte.
use crate::captures::{cut, damaged, long, random, valid, Numbers};
use crate::message::{Sender, FIRST_PLACE};
use crate::readers::{engine_call, engine_scan, simple_call, simple_scan, tuned_call, tuned_scan};
use crate::times;
use crate::words::{Found, WORDS};
use std::collections::BTreeMap;

const SENDERS: [Sender; 2] = [Sender::Client, Sender::Server];

/// How many random captures are read, each as of both senders.
const CAPTURES: usize = 600_000;

/// The ways of making a random capture.
const MAKERS: [fn(&mut Numbers, Sender) -> Vec<u8>; 4] =
    [|numbers, _| random(numbers), valid, damaged, cut];

/// What was seen: messages by type, and refusals by number and place, for each sender.
#[derive(Default)]
struct Seen {
    answers: BTreeMap<(bool, u64, u64, u64), u64>,
    compared: u64,
}

/// Every answer there is: types 1 to 10 but for those that are the other sender's, and each number
/// with its places.
fn expected(from: Sender) -> Vec<(u64, u64, u64)> {
    let others: &[u64] = if from == Sender::Client {
        &[2, 8]
    } else {
        &[9]
    };
    let types = (1..=10)
        .filter(|kind| !others.contains(kind))
        .map(|kind| (0, 0, kind));
    let refusals = [
        (10, 0),
        (14, 0),
        (20, 0),
        (21, 1),
        (21, 2),
        (21, 3),
        (23, 0),
        (24, 0),
    ];
    types
        .chain(refusals.map(|(number, place)| (number, place, 0)))
        .collect()
}

/// What the engine finds at a place, which both readers of Rust must find too.
fn compared(seen: &mut Seen, capture: &[u8], from: Sender, place: usize) -> Result<Found, String> {
    // A word that a reader leaves as it was would show.
    let (mut engine, mut simple, mut tuned) = ([1; WORDS], [2; WORDS], [3; WORDS]);
    engine_call(capture, from, place, &mut engine);
    simple_call(capture, from, place, &mut simple);
    tuned_call(capture, from, place, &mut tuned);
    if engine != simple || engine != tuned {
        return Err(format!(
            "{from:?} at {place} of {capture:02x?}: the engine finds {engine:?}, \
             the simple reader {simple:?}, the tuned one {tuned:?}"
        ));
    }
    seen.compared += 1;
    *seen
        .answers
        .entry((from == Sender::Server, engine[0], engine[1], engine[3]))
        .or_default() += 1;
    Ok(engine)
}

/// Every message of a capture up to the first refusal, the three scans, and a few other places.
fn whole_capture(
    seen: &mut Seen,
    numbers: &mut Numbers,
    capture: &[u8],
    from: Sender,
) -> Result<(), String> {
    let mut place = FIRST_PLACE;
    loop {
        let found = compared(seen, capture, from, place)?;
        if found[0] != 0 {
            break;
        }
        place = found[2] as usize;
    }
    let engine = engine_scan(capture, from);
    let (simple, tuned) = (simple_scan(capture, from), tuned_scan(capture, from));
    if engine != simple || engine != tuned {
        return Err(format!(
            "{from:?}, scans of {capture:02x?}: the engine's is {engine:?}, \
             the simple reader's {simple:?}, the tuned one's {tuned:?}"
        ));
    }
    for place in [
        numbers.below(capture.len() + 2),
        capture.len(),
        capture.len() + 1,
        usize::MAX,
    ] {
        compared(seen, capture, from, place)?;
    }
    Ok(())
}

/// Every first and second byte, with small and large numbers behind them, and input that has all
/// bytes, one too few, the header alone, or three bytes of it.
fn every_first_byte(seen: &mut Seen) -> Result<(), String> {
    const ENDS: [u8; 5] = [0, 1, 127, 128, 255];
    let mut input = vec![0; 4 + 65_535];
    for first in 0..=255 {
        for second in 0..=255 {
            for (third, fourth) in ENDS
                .iter()
                .flat_map(|third| ENDS.iter().map(move |fourth| (*third, *fourth)))
            {
                input[..4].copy_from_slice(&[first, second, third, fourth]);
                let whole = 4 + usize::from(u16::from_be_bytes([third, fourth]));
                for from in SENDERS {
                    for length in [whole, whole - 1, 4, 3] {
                        compared(seen, &input[..length], from, 0)?;
                    }
                }
            }
        }
    }
    Ok(())
}

/// Whether each expected answer came up, and no other.
fn all_expected(seen: &Seen) -> Result<(), String> {
    for from in SENDERS {
        for (number, place, kind) in expected(from) {
            if !seen
                .answers
                .contains_key(&(from == Sender::Server, number, place, kind))
            {
                return Err(format!(
                    "no capture of a {from:?} has number {number} at {place}, type {kind}"
                ));
            }
        }
    }
    if seen.answers.len()
        != SENDERS
            .iter()
            .map(|from| expected(*from).len())
            .sum::<usize>()
    {
        return Err(format!(
            "an answer that nobody expects: {:?}",
            seen.answers.keys()
        ));
    }
    Ok(())
}

/// Compares everything; the text is what to print.
pub fn all() -> Result<String, String> {
    let (mut seen, mut numbers) = (Seen::default(), Numbers::new(13));
    for number in 0..CAPTURES {
        let maker = MAKERS[number % MAKERS.len()];
        let capture = maker(&mut numbers, SENDERS[number / MAKERS.len() % 2]);
        for from in SENDERS {
            whole_capture(&mut seen, &mut numbers, &capture, from)?;
        }
    }
    let timed = times::captures();
    for (_, maker, capture) in &timed {
        times::agreed(capture, *maker)?;
        for from in SENDERS {
            whole_capture(&mut seen, &mut numbers, capture, from)?;
        }
    }
    for from in SENDERS {
        whole_capture(&mut seen, &mut numbers, &long(), from)?;
    }
    all_expected(&seen)?;
    let at_places = seen.compared;
    every_first_byte(&mut seen)?;
    all_expected(&seen)?;
    Ok(format!(
        "{CAPTURES} random captures, the {} timed ones and a long one, as of both senders: \
         {at_places} places alike; first bytes: {} inputs alike",
        timed.len(),
        seen.compared - at_places
    ))
}
