//! A reader's answer in the words that docs/CAPTURES.md lists, the same for the engine and for
//! Rust.
use crate::message::{Items, Refused, Step};

pub const WORDS: usize = 7;

/// Number, place of the byte at fault, next place, type, flags or shift, session, and length, cookie
/// or increment.
pub type Found = [u64; WORDS];

#[inline(always)]
pub fn lay_out(step: Step, place: usize, found: &mut Found) {
    *found = match step {
        Ok((message, next)) => {
            let items = message.items();
            [
                0,
                0,
                next as u64,
                items.kind,
                items.flags,
                items.session,
                items.value,
            ]
        }
        Err(Refused {
            number,
            place: fault,
        }) => [number.into(), fault.into(), place as u64, 0, 0, 0, 0],
    }
}

/// The items of the message that the words tell.
#[inline(always)]
pub fn items(found: &Found) -> Items {
    let [_, _, _, kind, flags, session, value] = *found;
    Items {
        kind,
        flags,
        session,
        value,
    }
}
