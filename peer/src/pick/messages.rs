//! Picks random messages from the far end, some that fit a connection's state and some that do not.

use super::id_where;
use crate::engine::Engine;
use crate::ration::Ration;
use crate::rng::Rng;
use crate::session::{Ours, Session, Theirs};
use crate::wire::{Data, Message, Role};

/// Gives a message as bytes, with a random body of its length.
pub fn with_body(rng: &mut Rng, message: &Message) -> Vec<u8> {
    let mut bytes = message.start().to_vec();
    bytes.extend(rng.bytes(usize::from(message.body())));
    bytes
}

/// Gives a message that the engine takes, one that does not end the connection.
pub fn good_message(rng: &mut Rng, engine: &Engine, pool: &[u8]) -> Vec<u8> {
    if let (Some(message), true) = (awaited_increment(rng, engine, pool), rng.percent(30)) {
        return with_body(rng, &message);
    }
    for _ in 0..12 {
        let message = any_message(rng, engine, pool);
        if takes(engine, &message) {
            return with_body(rng, &message);
        }
    }
    let length = rng.below(4) as u16;
    with_body(rng, &Message::NoOperation { length })
}

/// Gives an increment to a number whose bytes wait for one, if there is such a number.
fn awaited_increment(rng: &mut Rng, engine: &Engine, pool: &[u8]) -> Option<Message> {
    let id = id_where(rng, engine, pool, Session::is_held_up)?;
    Some(any_increment(rng, engine, id))
}

/// Tells whether the engine would take the message and go on.
fn takes(engine: &Engine, message: &Message) -> bool {
    let mut bytes = message.start().to_vec();
    bytes.resize(message.size(), 0);
    let mut trial = engine.clone();
    trial.receive(&bytes, 12, &mut Vec::new()).is_ok() && !trial.over
}

/// The kinds of messages that do not end the connection.
#[derive(Clone, Copy)]
enum Kind {
    NoOperation,
    Ping,
    PingAck,
    Increment,
    Abort,
    Close,
    Acknowledgment,
    OpenData,
    Data,
}

/// The kinds with how often each comes from a client and from a server.
const KINDS: [(Kind, u32, u32); 9] = [
    (Kind::NoOperation, 2, 2),
    (Kind::Ping, 3, 3),
    (Kind::PingAck, 3, 3),
    (Kind::Increment, 16, 16),
    (Kind::Abort, 8, 8),
    (Kind::Close, 0, 10),
    (Kind::Acknowledgment, 8, 0),
    (Kind::OpenData, 16, 0),
    (Kind::Data, 40, 40),
];

/// Gives a well-formed message from the far end to a number of the pool, in state or not.
pub fn any_message(rng: &mut Rng, engine: &Engine, pool: &[u8]) -> Message {
    let id = rng.one_of(pool);
    let weights = KINDS.map(|(_, client, server)| match engine.role {
        Role::Server => client,
        Role::Client => server,
    });
    let (kind, _, _) = KINDS[rng.weighted(&weights)];
    message_of_kind(rng, engine, id, kind)
}

/// Gives a message about a session, each kind that the far end may send as often as the others.
pub fn session_message(rng: &mut Rng, engine: &Engine, pool: &[u8]) -> Message {
    let id = rng.one_of(pool);
    let kinds = match engine.role {
        Role::Server => [
            Kind::Increment,
            Kind::Abort,
            Kind::Acknowledgment,
            Kind::OpenData,
            Kind::Data,
        ],
        Role::Client => [
            Kind::Increment,
            Kind::Abort,
            Kind::Close,
            Kind::Close,
            Kind::Data,
        ],
    };
    let kind = rng.one_of(&kinds);
    message_of_kind(rng, engine, id, kind)
}

/// Gives a message of a kind for a number.
fn message_of_kind(rng: &mut Rng, engine: &Engine, id: u8, kind: Kind) -> Message {
    match kind {
        Kind::NoOperation => Message::NoOperation {
            length: rng.below(5) as u16,
        },
        Kind::Ping => Message::Ping {
            cookie: rng.short(),
        },
        Kind::PingAck => Message::PingAck {
            cookie: engine.ping.unwrap_or(0),
        },
        Kind::Increment => any_increment(rng, engine, id),
        Kind::Abort => Message::Abort {
            id,
            partial: engine.role == Role::Client && rng.percent(50),
            length: rng.below(3) as u16,
        },
        Kind::Close => Message::Close { id },
        Kind::Acknowledgment => Message::Acknowledgment { id },
        Kind::OpenData => Message::Data(open_data(rng, engine, id)),
        Kind::Data => Message::Data(any_data(rng, engine, id)),
    }
}

/// Gives an increment: small, shifted, or just what lets all that waits go.
fn any_increment(rng: &mut Rng, engine: &Engine, id: u8) -> Message {
    let session = &engine.sessions[usize::from(id)];
    let waiting = session.waiting as u32;
    let (shift, increment) = match rng.below(6) {
        0 => (rng.below(8) as u8, rng.short()),
        1 => (rng.below(8) as u8, rng.below(9) as u16),
        2 | 3 => (0, (waiting - session.outbound.at_most(waiting)) as u16),
        _ => (0, rng.below(200) as u16),
    };
    Message::Increment {
        id,
        shift,
        increment,
    }
}

/// Gives an open Data message, of a length that the header's ration allows.
fn open_data(rng: &mut Rng, engine: &Engine, id: u8) -> Data {
    Data {
        id,
        open: true,
        eof: rng.percent(30),
        length: some_length(rng, Ration::from_header(engine.header)),
        ..Data::default()
    }
}

/// Gives a Data message without open, of a length that the session's ration allows.
fn any_data(rng: &mut Rng, engine: &Engine, id: u8) -> Data {
    let session = &engine.sessions[usize::from(id)];
    let counted = Engine::inbound_counts(session);
    let ration = if counted {
        session.inbound
    } else {
        Ration::Endless
    };
    let eof = rng.percent(35);
    let server = engine.role == Role::Client;
    Data {
        id,
        open: false,
        eof,
        close: server && eof && rng.percent(35),
        ack: server && eof && rng.percent(35),
        length: some_length(rng, ration),
    }
}

/// Gives a length within a ration: none, few, or all of it where that is not much.
pub fn some_length(rng: &mut Rng, ration: Ration) -> u16 {
    let wanted = match (rng.below(10), ration) {
        (0, _) => 0,
        (1 | 2, Ration::Finite(left)) if left <= 1_100 => left,
        (1, _) => rng.below(700) as u32,
        _ => rng.below(12) as u32,
    };
    ration.at_most(wanted) as u16
}

/// Gives the next increment on the shortest way to the largest outbound ration.
pub fn brim_increment(engine: &Engine, id: u8) -> Option<Message> {
    let session = &engine.sessions[usize::from(id)];
    let Ration::Finite(outbound) = session.outbound else {
        return None;
    };
    if session.ours != Ours::Open || !matches!(session.theirs, Theirs::Open | Theirs::Finished) {
        return None;
    }
    let left = Ration::LARGEST - outbound;
    let (shift, increment) = match left >> 14 {
        0 => (0, left),
        large => (7, large.min(65_535)),
    };
    Some(Message::Increment {
        id,
        shift,
        increment: increment as u16,
    })
}
