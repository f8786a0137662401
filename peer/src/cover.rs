//! Counts what scripts reach: calls, answers, refusals, places of violations, messages, pairs of sides.

mod report;

use crate::corners::{Step, CORNERS};
use crate::engine::{Phase, Taken};
use crate::pick;
use crate::play::{Player, Report};
use crate::refusal::{self, Refusal, Violation};
use crate::script::{Call, WORDS};
use crate::session::{Ours, Outcome, Session, Theirs};
use crate::wire::{Data, Message, Role, HEADER_LENGTH};
use std::collections::BTreeMap;

/// One more than the largest refusal number.
const ANSWERS: usize = 29;

/// The sides of a number at one role.
type Place = (bool, Ours, Theirs);

/// How calls and messages at one place were answered.
#[derive(Default, Clone, Copy)]
struct Cell {
    ok: u64,
    late: u64,
    refused: u64,
}

/// The state before a call: the number it is about, its session, and what kind of thing it is.
pub struct Before {
    /// The number that the call is about.
    pub id: Option<u8>,
    place: Option<Place>,
    event: &'static str,
    /// The session that the call is about, while the connection runs.
    pub session: Option<Session>,
    /// The number that a turn served last.
    pub last: u8,
    /// Whether the headers are exchanged and the connection is not over.
    messages: bool,
    /// Whether a client's session that was sent is running.
    pub running: bool,
    /// Whether a number is opening.
    pub opening: bool,
    /// Whether a running session's far side is finished while ours is open.
    pub far_finished: bool,
    /// Whether both sides of a running session are finished.
    pub both_finished: bool,
}

/// The counts.
pub struct Cover {
    pub scripts: u64,
    pub calls: u64,
    pub looks: u64,
    pub script_errors: u64,
    answers: Vec<[u64; ANSWERS]>,
    violations: BTreeMap<Violation, u64>,
    received: BTreeMap<&'static str, u64>,
    sent: BTreeMap<&'static str, u64>,
    pairs: BTreeMap<Place, u64>,
    grid: BTreeMap<(Place, &'static str), Cell>,
    corners: Vec<u64>,
    first_bytes: [u64; 256],
}

impl Default for Cover {
    fn default() -> Cover {
        Cover {
            scripts: 0,
            calls: 0,
            looks: 0,
            script_errors: 0,
            answers: vec![[0; ANSWERS]; WORDS.len()],
            violations: BTreeMap::new(),
            received: BTreeMap::new(),
            sent: BTreeMap::new(),
            pairs: BTreeMap::new(),
            grid: BTreeMap::new(),
            corners: vec![0; CORNERS.len()],
            first_bytes: [0; 256],
        }
    }
}

/// Gives the sides of a number at this end, if it is a session number.
fn place_of(player: &Player, id: Option<u8>) -> Option<Place> {
    let session = player.engine.sessions.get(usize::from(id?))?;
    let server = player.engine.role == Role::Server;
    Some((server, session.ours, session.theirs))
}

/// Gives the number that a received message is for, as far as its bytes tell.
fn received_id(player: &Player, bytes: &[u8]) -> Option<u8> {
    match (player.engine.phase, bytes) {
        (Phase::Up(_), [first, id, _, _, ..]) if *first >= 0x10 => Some(*id),
        _ => None,
    }
}

/// Gives a name for the kind of a received message, taken or not.
fn received_kind(bytes: &[u8]) -> &'static str {
    match bytes.first() {
        Some(0x10..=0x1F) => "receive increment",
        Some(0x20..=0x23) => "receive abort",
        Some(0x30) => "receive close",
        Some(0x40) => "receive ack",
        Some(0x80..=0x8F) => "receive data",
        Some(0x90..=0x9F) => "receive data open",
        _ => "receive other",
    }
}

impl Cover {
    /// Notes a script error.
    pub fn script_error(&mut self) {
        self.script_errors += 1;
    }

    /// Gives the state before a call.
    pub fn before(&self, player: &Player, call: &Call) -> Before {
        let (id, event) = match call {
            Call::Receive { bytes, .. } => (received_id(player, bytes), received_kind(bytes)),
            call => (call.id(), call.word()),
        };
        let place = if pick::runs(&player.engine) {
            place_of(player, id)
        } else {
            None
        };
        let sessions = &player.engine.sessions;
        let running = |session: &Session| session.outcome == Outcome::Running;
        let opening = |session: &Session| session.ours == Ours::Opening;
        let runs_as = |ours, theirs| move |s: &Session| running(s) && s.pair() == (ours, theirs);
        Before {
            id,
            place,
            session: place.and(sessions.get(usize::from(id.unwrap_or(255))).copied()),
            event,
            last: player.engine.last,
            messages: pick::runs(&player.engine),
            running: sessions.iter().any(|s| running(s) && !opening(s)),
            opening: sessions.iter().any(opening),
            far_finished: sessions.iter().any(runs_as(Ours::Open, Theirs::Finished)),
            both_finished: sessions
                .iter()
                .any(runs_as(Ours::Finished, Theirs::Finished)),
        }
    }

    /// Notes a call and its answer.
    pub fn after(
        &mut self,
        player: &Player,
        call: &Call,
        before: Before,
        answer: &Result<Report, Refusal>,
    ) {
        if !call.is_engine_call() {
            self.looks += 1;
            return;
        }
        self.calls += 1;
        self.note_answer(call, answer);
        if before.messages {
            self.note_first_byte(call, answer);
        }
        self.note_received(answer);
        self.note_sent(player, call);
        self.note_place(player, &before, answer);
        for (place, (_, reached)) in CORNERS.iter().enumerate() {
            if reached(&Step::new(player, call, &before, answer)) {
                self.corners[place] += 1;
            }
        }
    }

    /// Notes the number of a refusal, 0 for none, and the place of a violation.
    fn note_answer(&mut self, call: &Call, answer: &Result<Report, Refusal>) {
        let number = answer.err().map_or(0, Refusal::number);
        self.answers[call.index()][usize::from(number)] += 1;
        if let Err(Refusal::Violation(violation)) = answer {
            *self.violations.entry(*violation).or_default() += 1;
        }
    }

    /// Notes the first byte of a message that came far enough to be looked at.
    fn note_first_byte(&mut self, call: &Call, answer: &Result<Report, Refusal>) {
        let refused = *answer == Err(refusal::ROOM.into());
        if let (Call::Receive { bytes, .. }, false) = (call, refused) {
            if let [first, _, _, _, ..] = bytes[..] {
                self.first_bytes[usize::from(first)] += 1;
            }
        }
    }

    /// Notes what receive took.
    fn note_received(&mut self, answer: &Result<Report, Refusal>) {
        if let Ok(Report::Taken(taken)) = answer {
            let name = match taken {
                Taken::Header(_) => "header",
                Taken::Message(message, late) => message_name(message, *late),
            };
            *self.received.entry(name).or_default() += 1;
        }
    }

    /// Notes the header and messages that a call wrote.
    fn note_sent(&mut self, player: &Player, call: &Call) {
        let mut rest = &player.written[..];
        if rest.first() == Some(&0x4A) {
            *self.sent.entry("header").or_default() += 1;
            rest = &rest[HEADER_LENGTH..];
        }
        if let Ok(message) = Message::read(rest, player.engine.role) {
            let reply = matches!(call, Call::Receive { .. });
            let name = match (message, reply) {
                (Message::Abort { partial: true, .. }, true) => "reply abort partial",
                (Message::Abort { .. }, true) => "reply abort",
                _ => message_name(&message, false),
            };
            *self.sent.entry(name).or_default() += 1;
        }
    }

    /// Notes the sides before and after the call.
    fn note_place(&mut self, player: &Player, before: &Before, answer: &Result<Report, Refusal>) {
        if let Some(place) = before.place {
            let cell = self.grid.entry((place, before.event)).or_default();
            match answer {
                Ok(Report::Taken(Taken::Message(_, true))) => cell.late += 1,
                Ok(_) => cell.ok += 1,
                Err(_) => cell.refused += 1,
            }
        }
        let id = match answer {
            Ok(Report::Turn(id)) => Some(*id),
            _ => before.id,
        };
        if let Some(place) = place_of(player, id) {
            *self.pairs.entry(place).or_default() += 1;
        }
    }
}

/// Gives a name for a message that was taken or sent.
fn message_name(message: &Message, late: bool) -> &'static str {
    match (*message, late) {
        (Message::NoOperation { .. }, _) => "noop",
        (Message::Shutdown { .. }, _) => "shutdown",
        (Message::Ping { .. }, _) => "ping",
        (Message::PingAck { .. }, _) => "pingack",
        (Message::Error { .. }, _) => "error",
        (Message::Increment { .. }, true) => "increment late",
        (Message::Increment { shift: 0, .. }, _) => "increment",
        (Message::Increment { .. }, _) => "increment shifted",
        (Message::Abort { partial: true, .. }, _) => "abort partial",
        (Message::Abort { .. }, _) => "abort",
        (Message::Close { .. }, _) => "close",
        (Message::Acknowledgment { .. }, _) => "ack",
        (Message::Data(data), late) => data_name(&data, late),
    }
}

/// Gives a name for Data by its flags.
fn data_name(data: &Data, late: bool) -> &'static str {
    match (data.open, data.close, data.eof, data.ack, late) {
        (true, _, false, _, _) => "data open",
        (true, _, true, _, _) => "data open eof",
        (_, false, false, _, false) => "data",
        (_, false, true, false, false) => "data eof",
        (_, true, _, false, false) => "data close eof",
        (_, false, _, true, false) => "data eof ack",
        (_, true, _, true, false) => "data close eof ack",
        (_, false, false, _, true) => "data late",
        (_, false, true, false, true) => "data eof late",
        (_, true, _, false, true) => "data close eof late",
        (_, false, _, true, true) => "data eof ack late",
        (_, true, _, true, true) => "data close eof ack late",
    }
}
