//! The far end that the generator plays itself, and the two byte queues between the ends.

use crate::engine::{Engine, Phase};
use crate::pick::{self, Mood};
use crate::play::{Player, Report};
use crate::ration::Ration;
use crate::rng::Rng;
use crate::script::{Call, First};
use crate::session::{Ours, Outcome, Session, Starts, Theirs};
use crate::wire::{effective, Data, Message, Role};

/// Bytes on their way from one end to the other.
#[derive(Default)]
pub struct Pipe {
    bytes: Vec<u8>,
    start: usize,
}

impl Pipe {
    /// Adds bytes at the end.
    pub fn push(&mut self, bytes: &[u8]) {
        self.bytes.extend_from_slice(bytes);
    }

    /// Gives the bytes that are on their way.
    pub fn front(&self) -> &[u8] {
        &self.bytes[self.start..]
    }

    /// Takes bytes away from the front.
    pub fn take(&mut self, count: usize) {
        self.start += count;
        if self.start * 2 > self.bytes.len() {
            self.bytes.drain(..self.start);
            self.start = 0;
        }
    }
}

/// The far end; it may send all that the published protocol allows, also what our engine never sends by itself.
pub struct Far {
    pub player: Player,
    pub to_near: Pipe,
    pub to_far: Pipe,
}

impl Far {
    /// A far end just made.
    pub fn new(role: Role, header: u16) -> Far {
        let queue = None;
        Far {
            player: Player::new(&First {
                role,
                header,
                queue,
            }),
            to_near: Pipe::default(),
            to_far: Pipe::default(),
        }
    }

    /// Does one thing by itself: a call, or a message that the calls cannot write.
    pub fn act(&mut self, rng: &mut Rng, pool: &[u8], mood: Mood) {
        let engine = &self.player.engine;
        if engine.phase == Phase::Fresh && engine.role == Role::Client {
            self.call(&Call::Start { room: None });
        } else if pick::runs(engine) {
            if rng.percent(45) {
                self.send_special(rng, pool, mood);
            } else if let Some(call) = pick::good_call(rng, engine, pool, mood) {
                self.call(&call);
            }
        }
    }

    /// Runs a call and sends what it wrote.
    pub fn call(&mut self, call: &Call) {
        if self.player.run(call).is_ok() || self.player.engine.over {
            self.to_near.push(&self.player.written);
        }
    }

    /// Takes one message from the near end, if one is there whole.
    pub fn hear(&mut self) {
        let call = Call::Receive {
            bytes: self.next_for_far(),
            room: None,
        };
        let answer = self.player.run(&call);
        self.to_near.push(&self.player.written);
        if let Ok(Report::Taken(taken)) = answer {
            self.to_far.take(taken.used());
        }
    }

    /// Gives enough of the bytes for the far end to hold any one message.
    fn next_for_far(&self) -> Vec<u8> {
        let front = self.to_far.front();
        front[..front.len().min(66_000)].to_vec()
    }

    /// Sends a message that our own calls never write, if the state allows one.
    fn send_special(&mut self, rng: &mut Rng, pool: &[u8], mood: Mood) {
        let engine = &self.player.engine;
        let id = rng.one_of(pool);
        let session = engine.sessions[usize::from(id)];
        let message = match engine.role {
            Role::Client => special_of_client(rng, engine, id, &session, mood),
            Role::Server => special_of_server(rng, id, &session),
        };
        if let Some(message) = message.or_else(|| special_of_both(rng, id, &session)) {
            self.send(rng, &message);
        }
    }

    /// Sends a message with a random body and records it as sent.
    fn send(&mut self, rng: &mut Rng, message: &Message) {
        let bytes = pick::with_body(rng, message);
        self.to_near.push(&bytes);
        let starts = self.starts();
        if let Some(id) = message.id() {
            record(
                &mut self.player.engine.sessions[usize::from(id)],
                message,
                starts,
            );
        }
    }

    /// Gives the rations with which the far end's sessions begin.
    fn starts(&self) -> Starts {
        let engine = &self.player.engine;
        let near = match engine.phase {
            Phase::Up(near) => near,
            _ => 0,
        };
        Starts {
            outbound: Ration::from_header(near),
            inbound: Ration::from_header(engine.header),
        }
    }
}

/// Gives a message that only a client sends, if the session allows it.
fn special_of_client(
    rng: &mut Rng,
    engine: &Engine,
    id: u8,
    session: &Session,
    mood: Mood,
) -> Option<Message> {
    let Phase::Up(near) = engine.phase else {
        return None;
    };
    if session.may_open() && mood == Mood::Busy && rng.percent(60) {
        let data = Data {
            id,
            open: true,
            eof: rng.percent(40),
            length: pick::some_length(rng, Ration::from_header(near)),
            ..Data::default()
        };
        return Some(Message::Data(data));
    }
    let may_acknowledge = matches!(session.ours, Ours::Open | Ours::Finished);
    (may_acknowledge && rng.percent(25)).then_some(Message::Acknowledgment { id })
}

/// Gives a message that only a server sends, if the session allows it.
fn special_of_server(rng: &mut Rng, id: u8, session: &Session) -> Option<Message> {
    if session.ours != Ours::Open || rng.percent(60) {
        return None;
    }
    let data = Data {
        id,
        open: false,
        eof: true,
        close: rng.percent(60),
        ack: rng.percent(50),
        length: pick::some_length(rng, session.outbound),
    };
    Some(Message::Data(data))
}

/// Gives a message that both ends send, if the session allows it.
fn special_of_both(rng: &mut Rng, id: u8, session: &Session) -> Option<Message> {
    let established = matches!(session.ours, Ours::Open | Ours::Finished);
    match rng.below(10) {
        0 => Some(Message::NoOperation {
            length: rng.below(9) as u16,
        }),
        1..=3 if established => special_increment(rng, id, session),
        4 if established && rng.percent(30) => Some(Message::Abort {
            id,
            partial: false,
            length: rng.below(9) as u16,
        }),
        5.. if session.ours == Ours::Open => Some(Message::Data(Data {
            id,
            eof: rng.percent(25),
            length: pick::some_length(rng, session.outbound),
            ..Data::default()
        })),
        _ => None,
    }
}

/// Gives a shifted increment that keeps our inbound ration in its range.
fn special_increment(rng: &mut Rng, id: u8, session: &Session) -> Option<Message> {
    let shift = rng.below(8) as u8;
    let increment = if rng.percent(70) {
        rng.below(40) as u16
    } else {
        rng.short()
    };
    let counts = session.theirs == Theirs::Open;
    if counts && session.inbound.grow(effective(shift, increment)).is_none() {
        return None;
    }
    Some(Message::Increment {
        id,
        shift,
        increment,
    })
}

/// Records in the sender's session that the message was sent.
fn record(session: &mut Session, message: &Message, starts: Starts) {
    match *message {
        Message::Data(data) => record_data(session, data, starts),
        Message::Increment {
            shift, increment, ..
        } => {
            if let Some(inbound) = session.inbound.grow(effective(shift, increment)) {
                session.inbound = inbound;
            }
        }
        Message::Abort { .. } => {
            session.settle(Outcome::NoRetry);
            session.end_ours();
        }
        _ => {}
    }
}

/// Records in the sender's session that Data was sent.
fn record_data(session: &mut Session, data: Data, starts: Starts) {
    if data.open {
        session.open();
        session.begin(starts);
    }
    if let Some(left) = session.outbound.spend(u32::from(data.length)) {
        session.outbound = left;
    }
    if data.eof {
        session.ours = Ours::Finished;
        session.drop_waiting();
    }
    if data.close {
        session.ours = Ours::Ended;
    }
}
