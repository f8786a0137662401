//! Picks random calls and messages, some that fit a connection's state and some that do not.

mod messages;

pub use messages::{
    any_message, brim_increment, good_message, session_message, some_length, with_body,
};

use crate::engine::{Engine, Phase, TURN_ROOM};
use crate::ration::Ration;
use crate::rng::Rng;
use crate::script::{Call, Room, LARGEST_PUT, LARGEST_ROOM};
use crate::session::{Ours, Session, SLOT};
use crate::wire::Role;

/// The aim of a run of calls.
#[derive(Clone, Copy, Debug, PartialEq, Eq)]
pub enum Mood {
    /// All sorts of work.
    Busy,
    /// No new sessions; those that run are brought to their end.
    Closing,
}

/// Gives a room: edges of all the rooms that calls need, and others.
pub fn room(rng: &mut Rng) -> Room {
    let edges = [0, 1, 3, 4, 5, 7, 8, 9, 11, 12, 13, 599, 600, 601, 66_000];
    Some(match rng.below(8) {
        0 => rng.below(u64::from(LARGEST_ROOM) + 1) as u32,
        1 => TURN_ROOM as u32 - 1 + rng.below(3) as u32,
        _ => rng.one_of(&edges),
    })
}

/// Gives a number of the pool that passes the test, if there is one.
pub fn id_where(
    rng: &mut Rng,
    engine: &Engine,
    pool: &[u8],
    test: impl Fn(&Session) -> bool,
) -> Option<u8> {
    let begin = rng.below(pool.len() as u64) as usize;
    (0..pool.len())
        .map(|step| pool[(begin + step) % pool.len()])
        .find(|&id| test(&engine.sessions[usize::from(id)]))
}

/// Gives a call that the engine is likely to take, or nothing if a few trials find none.
pub fn good_call(rng: &mut Rng, engine: &Engine, pool: &[u8], mood: Mood) -> Option<Call> {
    (0..6).find_map(|_| try_good_call(rng, engine, pool, mood))
}

/// Gives the weights of the calls, in the order of `try_good_call`.
fn weights_of_calls(role: Role, mood: Mood) -> [u32; 8] {
    let busy = u32::from(mood == Mood::Busy);
    let client = u32::from(role == Role::Client);
    let server = u32::from(role == Role::Server);
    [
        14 * client * busy,
        22 * busy,
        10,
        30,
        10,
        4 * busy,
        14 * server,
        3 * busy,
    ]
}

/// Picks a kind of call and gives it if a number fits it.
fn try_good_call(rng: &mut Rng, engine: &Engine, pool: &[u8], mood: Mood) -> Option<Call> {
    let weights = weights_of_calls(engine.role, mood);
    let call = match rng.weighted(&weights) {
        0 => Call::Open {
            id: id_where(rng, engine, pool, Session::may_open)?,
        },
        1 => good_put(rng, engine, pool)?,
        2 => Call::Finish {
            id: id_where(rng, engine, pool, Session::may_put)?,
        },
        3 => good_turn(rng, engine)?,
        4 => good_grant(rng, engine, pool)?,
        5 => Call::Abort {
            id: id_where(rng, engine, pool, Session::may_abort)?,
            partial: engine.role == Role::Server && rng.percent(50),
            room: None,
        },
        6 => Call::Close {
            id: id_where(rng, engine, pool, |session| session.ours == Ours::Finished)?,
            room: None,
        },
        _ if engine.ping.is_none() => Call::Ping {
            cookie: rng.short(),
            room: None,
        },
        _ => return None,
    };
    Some(call)
}

/// Gives a turn, mostly where a number is ready, at times with no more room than it asks for.
fn good_turn(rng: &mut Rng, engine: &Engine) -> Option<Call> {
    let ready = engine.sessions.iter().any(Session::ready);
    let room = rng.percent(10).then_some(TURN_ROOM as u32);
    (ready || rng.percent(7)).then_some(Call::Turn { room })
}

/// Gives a put, mostly of what fits.
fn good_put(rng: &mut Rng, engine: &Engine, pool: &[u8]) -> Option<Call> {
    let id = id_where(rng, engine, pool, Session::may_put)?;
    let waiting = engine.sessions[usize::from(id)].waiting;
    let space = SLOT - waiting;
    let count = match rng.below(13) {
        0 => 0,
        1 | 2 => space,
        3 => (space + 1).min(LARGEST_PUT),
        4 => around_a_unit(rng).saturating_sub(waiting),
        5..=7 => rng.below(space as u64 + 1) as usize,
        _ => rng.below(1 + space.min(8) as u64) as usize,
    };
    let bytes = rng.bytes(count);
    Some(Call::Put { id, bytes })
}

/// Gives a grant, mostly of a small amount or a unit, at times where the ration is used up.
fn good_grant(rng: &mut Rng, engine: &Engine, pool: &[u8]) -> Option<Call> {
    let used_up = |s: &Session| s.may_grant() && s.inbound == Ration::Finite(0);
    let id = match id_where(rng, engine, pool, used_up) {
        Some(id) if rng.percent(50) => id,
        _ => id_where(rng, engine, pool, Session::may_grant)?,
    };
    let amount = match rng.below(10) {
        0 => u32::from(rng.short()),
        1 => 65_535,
        2 => 1,
        3 | 4 => Ration::UNIT,
        _ => rng.between(1, 120) as u32,
    };
    let room = None;
    Some(Call::Grant { id, amount, room })
}

/// Gives a number: one of the pool, any, or one that the engine refuses.
fn wild_id(rng: &mut Rng, pool: &[u8]) -> u8 {
    match rng.below(10) {
        0 => rng.one_of(&[127, 128, 129, 255]),
        1 => rng.byte(),
        _ => rng.one_of(pool),
    }
}

/// Gives any call at all, fit or not; never one that ends the connection, unless `ends`.
pub fn wild_call(rng: &mut Rng, pool: &[u8], ends: bool) -> Call {
    let id = wild_id(rng, pool);
    let room = if rng.percent(40) { room(rng) } else { None };
    match rng.below(if ends { 13 } else { 10 }) {
        0 => Call::Start { room },
        1 => Call::Open { id },
        2 => Call::Put {
            id,
            bytes: wild_bytes(rng),
        },
        3 => Call::Finish { id },
        4 => Call::Turn { room },
        5 => Call::Grant {
            id,
            amount: rng.one_of(&[0, 1, 2, 65_535, 65_536, 70_000, 999_999_999]),
            room,
        },
        6 => Call::Abort {
            id,
            partial: rng.percent(50),
            room,
        },
        7 => Call::Close { id, room },
        8 => Call::Ping {
            cookie: rng.short(),
            room,
        },
        9 => Call::Shutdown {
            room: Some(rng.below(4) as u32),
        },
        10 => Call::Shutdown { room },
        11 => Call::Lost,
        _ => Call::Receive {
            bytes: wild_bytes(rng),
            room,
        },
    }
}

/// Gives bytes for a put or receive: none, few, around a slot, around a unit, or as many as put takes.
fn wild_bytes(rng: &mut Rng) -> Vec<u8> {
    let count = match rng.below(12) {
        0 => 0,
        1 => SLOT - 1 + rng.below(4) as usize,
        2 => LARGEST_PUT - rng.below(2) as usize,
        3 => around_a_unit(rng),
        _ => rng.below(12) as usize,
    };
    rng.bytes(count)
}

/// Gives a number of bytes around the smallest starting ration.
fn around_a_unit(rng: &mut Rng) -> usize {
    Ration::UNIT as usize - 1 + rng.below(3) as usize
}

/// Tells whether messages may go, that is, whether the headers are exchanged and it is not over.
pub fn runs(engine: &Engine) -> bool {
    matches!(engine.phase, Phase::Up(_)) && !engine.over
}
