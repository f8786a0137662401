//! What journals' scripts should reach, each told from one call.

use super::step::Step;
use crate::journal::play::Answer;
use crate::journal::{BLOCK, KIND, MOST_BLOCKS, NO_BAD_BLOCK, NO_RETRY, NUMBER, REGION};
use crate::wire::LARGEST_ID;

/// A kind of line or a corner of the rules: its name, and whether a step reaches it.
type Item = (&'static str, fn(&Step) -> bool);

/// Tells whether all blocks can be read, so that none is bad.
fn full(step: &Step) -> bool {
    step.before.readable > 0 && step.before.readable * BLOCK == step.journal.region.len()
}

/// Tells whether a store's number is one that is refused.
fn wrong_number(step: &Step) -> bool {
    step.store().is_some_and(|(id, _)| id > LARGEST_ID)
}

/// Tells whether a store's kind is one that is refused.
fn wrong_kind(step: &Step) -> bool {
    step.store().is_some_and(|(_, kind)| kind > NO_RETRY)
}

/// Tells whether a read ended at a block that breaks this rule and no other.
fn breaks_only(step: &Step, rule: &str) -> bool {
    step.broken == [rule]
}

/// Tells whether a repair found no bad block.
fn repairs_none(step: &Step) -> bool {
    *step.answer == Ok(Answer::Repaired(None))
}

/// All items.
pub const ITEMS: [Item; 68] = [
    ("store ok", |step| step.stored().is_some()),
    ("store ok, STORES named", |step| {
        step.stored().is_some() && step.named_stores()
    }),
    ("store ok, in the region's last block", |step| {
        let last = step.journal.region.len() / BLOCK;
        step.stored().is_some_and(|serial| serial as usize == last)
    }),
    ("store ok, over a block that is not zero", |step| {
        step.stored().is_some() && step.before.torn
    }),
    ("store ok, entries behind it can be read again", |step| {
        step.stored().is_some() && step.now > step.before.readable + 1
    }),
    ("store cut 0", |step| step.cut_store() == Some(0)),
    ("store cut 1 to 6", |step| {
        matches!(step.cut_store(), Some(1..=6))
    }),
    ("store cut 7 to 505", |step| {
        matches!(step.cut_store(), Some(7..=505))
    }),
    ("store cut 506 to 510", |step| {
        matches!(step.cut_store(), Some(506..=510))
    }),
    ("store cut 511", |step| step.cut_store() == Some(511)),
    ("store cut, over a block that is not zero", |step| {
        step.cut_store().is_some() && step.before.torn
    }),
    ("store cut, and damage before lets it be read", |step| {
        step.cut_store().is_some() && step.now > step.before.readable
    }),
    ("store refused 8", |step| step.refused("store", REGION)),
    ("store refused 8, its number wrong too", |step| {
        step.refused("store", REGION) && wrong_number(step)
    }),
    ("store refused 8, its kind wrong too", |step| {
        step.refused("store", REGION) && wrong_kind(step)
    }),
    ("store refused 3", |step| step.refused("store", NUMBER)),
    ("store refused 3, its kind wrong too", |step| {
        step.refused("store", NUMBER) && wrong_kind(step)
    }),
    ("store refused 3, no block bad", |step| {
        step.refused("store", NUMBER) && full(step)
    }),
    ("store refused 12", |step| step.refused("store", KIND)),
    ("store refused 12, no block bad", |step| {
        step.refused("store", KIND) && full(step)
    }),
    ("store refused 16", |step| {
        step.refused("store", NO_BAD_BLOCK)
    }),
    ("store refused 16, STORES named", |step| {
        step.refused("store", NO_BAD_BLOCK) && step.named_stores()
    }),
    ("store refused 16, 128 blocks", |step| {
        step.refused("store", NO_BAD_BLOCK) && step.now == MOST_BLOCKS
    }),
    ("repair ok block, of zeros", |step| {
        step.repaired().is_some() && !step.before.torn
    }),
    ("repair ok block, of other bytes", |step| {
        step.repaired().is_some() && step.before.torn
    }),
    ("repair ok block, STORES named", |step| {
        step.repaired().is_some() && step.named_stores()
    }),
    ("repair ok none", repairs_none),
    ("repair ok none, STORES named", |step| {
        repairs_none(step) && step.named_stores()
    }),
    ("repair cut 0", |step| step.cut_repair() == Some(0)),
    ("repair cut 1 to 511", |step| {
        step.cut_repair().is_some_and(|count| count > 0)
    }),
    ("repair cut, and damage before lets it be read", |step| {
        step.cut_repair().is_some() && step.now > step.before.readable
    }),
    ("repair refused 8", |step| step.refused("repair", REGION)),
    ("read ok 0", |step| step.read() == Some(0)),
    ("read ok 1", |step| step.read() == Some(1)),
    ("read ok, 2 to 127 entries", |step| {
        matches!(step.read(), Some(2..=127))
    }),
    ("read ok 128", |step| step.read() == Some(MOST_BLOCKS)),
    ("read ok, no block bad", |step| {
        step.read().is_some() && full(step)
    }),
    ("read ends at a block with a wrong serial alone", |step| {
        breaks_only(step, "serial")
    }),
    ("read ends at a block with a wrong number alone", |step| {
        breaks_only(step, "number")
    }),
    ("read ends at a block with a wrong kind alone", |step| {
        breaks_only(step, "kind")
    }),
    ("read ends at a block with wrong zeros alone", |step| {
        breaks_only(step, "zeros")
    }),
    ("read ends at a block with a wrong check alone", |step| {
        breaks_only(step, "check")
    }),
    ("read ends at a block with a wrong mark alone", |step| {
        breaks_only(step, "mark")
    }),
    ("read refused 8", |step| step.refused("read", REGION)),
    ("list ok, no serial", |step| step.listed() == Some(0)),
    ("list ok, one serial", |step| step.listed() == Some(1)),
    ("list ok, several serials", |step| {
        step.listed().is_some_and(|count| count > 1)
    }),
    ("list refused 8", |step| step.refused("list", REGION)),
    ("list: a start answered by 1 alone", |step| {
        step.start(|start| start.fates == [1])
    }),
    ("list: a start answered by 2 alone", |step| {
        step.start(|start| start.fates == [2])
    }),
    ("list: a start answered by 3 alone", |step| {
        step.start(|start| start.fates == [3])
    }),
    ("list: a start answered by 3, then by 1 or 2", |step| {
        step.start(|start| matches!(start.fates[..], [3, 1 | 2, ..]))
    }),
    ("list: a start answered by 1 or 2, then by 3", |step| {
        step.start(|start| matches!(start.fates[..], [1 | 2, 3, ..]))
    }),
    ("list: a start answered by 3, then started again", |step| {
        step.start(|start| start.fates == [3] && start.again)
    }),
    ("list: a start answered by 1 or 2, then again", |step| {
        step.start(|start| matches!(start.fates[..], [1 | 2]) && start.again)
    }),
    ("list: a start without answer, then again", |step| {
        step.start(|start| start.fates.is_empty() && start.again)
    }),
    ("list: a start without answer up to the end", |step| {
        step.start(|start| start.fates.is_empty() && !start.again)
    }),
    ("list: only another number is answered between", |step| {
        step.start(|start| start.fates.is_empty() && start.others)
    }),
    ("list: a number's fate before any start of it", |step| {
        step.fate_alone()
    }),
    ("damage that lets fewer entries be read", |step| {
        step.damaged(|before, now| now < before)
    }),
    ("damage that lets more entries be read", |step| {
        step.damaged(|before, now| now > before)
    }),
    ("damage that lets as many entries be read", |step| {
        step.damaged(|before, now| now == before)
    }),
    ("block BYTES", |step| {
        step.block().is_some_and(|(_, given)| given)
    }),
    ("block BYTES, of a region that calls refuse", |step| {
        let refused = step.journal.blocks().is_err();
        step.block().is_some_and(|(_, given)| given) && refused
    }),
    ("block BYTES, behind the 128th", |step| {
        step.block()
            .is_some_and(|(number, given)| given && number as usize > MOST_BLOCKS)
    }),
    ("block none", |step| {
        step.block().is_some_and(|(_, given)| !given)
    }),
    ("block none, block 0", |step| {
        step.block() == Some((0, false))
    }),
    ("block none, a part of it in the region", |step| {
        let length = step.journal.region.len();
        let part = |number: u32| length % BLOCK > 0 && number as usize == length / BLOCK + 1;
        step.block()
            .is_some_and(|(number, given)| !given && part(number))
    }),
];
