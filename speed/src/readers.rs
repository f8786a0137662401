//! The three readers, each in one scan of its own, and each by a call for every message.
use crate::message::{Sender, Step, Tally, FIRST_PLACE};
use crate::words::{items, lay_out, Found, WORDS};
use crate::{engine, simple, tuned};

/// Reads a whole capture.
pub type Scan = fn(&[u8], Sender) -> Tally;

#[inline(always)]
fn tally(capture: &[u8], read: impl Fn(&[u8], usize) -> Step) -> Tally {
    let (mut place, mut messages, mut sum) = (FIRST_PLACE, 0, 0_u64);
    loop {
        match read(capture, place) {
            Ok((message, next)) => {
                place = next;
                messages += 1;
                sum = sum.wrapping_add(message.items().packed());
            }
            Err(refused) => {
                let (number, fault) = (refused.number.into(), refused.place.into());
                return Tally {
                    number,
                    fault,
                    place: place as u64,
                    messages,
                    sum,
                };
            }
        }
    }
}

#[inline(never)]
pub fn simple_scan(capture: &[u8], from: Sender) -> Tally {
    tally(capture, |capture, place| {
        simple::read_at(capture, from, place)
    })
}

#[inline(never)]
pub fn tuned_scan(capture: &[u8], from: Sender) -> Tally {
    match from {
        Sender::Client => tally(capture, tuned::read_from::<false>),
        Sender::Server => tally(capture, tuned::read_from::<true>),
    }
}

#[inline(never)]
pub fn engine_scan(capture: &[u8], from: Sender) -> Tally {
    engine::read_all(capture, from)
}

#[inline(never)]
pub fn simple_call(capture: &[u8], from: Sender, place: usize, found: &mut Found) {
    lay_out(simple::read_at(capture, from, place), place, found);
}

#[inline(never)]
pub fn tuned_call(capture: &[u8], from: Sender, place: usize, found: &mut Found) {
    lay_out(tuned::read_at(capture, from, place), place, found);
}

#[inline(always)]
pub fn engine_call(capture: &[u8], from: Sender, place: usize, found: &mut Found) {
    engine::read_at(capture, from, place, found);
}

#[inline(always)]
fn tally_calls(
    capture: &[u8],
    from: Sender,
    call: impl Fn(&[u8], Sender, usize, &mut Found),
) -> Tally {
    let (mut place, mut messages, mut sum) = (FIRST_PLACE, 0, 0_u64);
    let mut found = [0; WORDS];
    loop {
        call(capture, from, place, &mut found);
        if found[0] != 0 {
            return Tally {
                number: found[0],
                fault: found[1],
                place: found[2],
                messages,
                sum,
            };
        }
        place = found[2] as usize;
        messages += 1;
        sum = sum.wrapping_add(items(&found).packed());
    }
}

#[inline(never)]
pub fn simple_calls(capture: &[u8], from: Sender) -> Tally {
    tally_calls(capture, from, simple_call)
}

#[inline(never)]
pub fn tuned_calls(capture: &[u8], from: Sender) -> Tally {
    tally_calls(capture, from, tuned_call)
}

#[inline(never)]
pub fn engine_calls(capture: &[u8], from: Sender) -> Tally {
    tally_calls(capture, from, engine_call)
}
