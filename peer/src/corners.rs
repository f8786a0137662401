//! The corners of the rules that scripts should reach, each told from one call.

use crate::cover::Before;
use crate::engine::{Engine, Taken, TURN_ROOM};
use crate::play::{Player, Report};
use crate::ration::Ration;
use crate::refusal::{self, Refusal};
use crate::script::Call;
use crate::session::{Ours, Session, Theirs, SLOT};
use crate::wire::{self, Data, Message, OPEN};

/// One call with the state before and after it.
pub struct Step<'a> {
    call: &'a Call,
    before: &'a Before,
    answer: &'a Result<Report, Refusal>,
    /// The session that the call was about, as it is now.
    now: Option<&'a Session>,
    written: &'a [u8],
    over: bool,
}

impl<'a> Step<'a> {
    /// Gathers a step from the player after the call.
    pub fn new(
        player: &'a Player,
        call: &'a Call,
        before: &'a Before,
        answer: &'a Result<Report, Refusal>,
    ) -> Step<'a> {
        let id = match answer {
            Ok(Report::Turn(id)) => Some(*id),
            _ => before.id,
        };
        Step {
            call,
            before,
            answer,
            now: id.and_then(|id| player.engine.sessions.get(usize::from(id))),
            written: &player.written,
            over: player.engine.over,
        }
    }

    fn ok(&self) -> bool {
        self.answer.is_ok()
    }

    /// Gives the message that was taken.
    fn taken(&self) -> Option<Message> {
        match self.answer {
            Ok(Report::Taken(Taken::Message(message, _))) => Some(*message),
            _ => None,
        }
    }

    /// Gives the Data message that was taken.
    fn data(&self) -> Option<Data> {
        match self.taken() {
            Some(Message::Data(data)) => Some(data),
            _ => None,
        }
    }

    /// Gives the increment of a taken IncrementRation message that was not late.
    fn increment(&self) -> Option<u16> {
        match self.answer {
            Ok(Report::Taken(Taken::Message(Message::Increment { increment, .. }, false))) => {
                Some(*increment)
            }
            _ => None,
        }
    }

    /// Tells whether the session before the call passes a test.
    fn was(&self, test: impl Fn(&Session) -> bool) -> bool {
        self.before.session.as_ref().is_some_and(test)
    }

    /// Tells whether the session after the call passes a test.
    fn is(&self, test: impl Fn(&Session) -> bool) -> bool {
        self.now.is_some_and(test)
    }

    /// Tells whether a turn wrote a session's first message and left bytes waiting.
    fn cut_opening(&self) -> bool {
        let turn = matches!(self.answer, Ok(Report::Turn(_)));
        let first = self.written.first().is_some_and(|byte| byte & OPEN != 0);
        turn && first && self.is(|session| session.waiting > 0)
    }

    /// Tells whether the call was refused with this number.
    fn refused(&self, number: u8) -> bool {
        matches!(self.answer, Err(refusal) if refusal.number() == number)
    }

    /// Tells whether a violation was found.
    fn violation(&self) -> bool {
        matches!(self.answer, Err(Refusal::Violation(_)))
    }

    /// Tells whether the input of receive begins with this many bytes that pass the test.
    fn begins<const N: usize>(&self, test: impl Fn([u8; N]) -> bool) -> bool {
        let Call::Receive { bytes, .. } = self.call else {
            return false;
        };
        bytes.first_chunk().is_some_and(|start| test(*start))
    }

    /// Tells whether an Error was taken.
    fn error(&self) -> bool {
        ends(self, |message| matches!(message, Message::Error { .. }))
    }

    /// Tells whether a Shutdown was taken.
    fn shutdown(&self) -> bool {
        ends(self, |message| matches!(message, Message::Shutdown { .. }))
    }

    /// Tells whether a running session's far side was finished before the call.
    fn finished_by_far(&self) -> bool {
        self.before.far_finished || self.before.both_finished
    }
}

/// A corner: its name, and whether a step reaches it.
type Corner = (&'static str, fn(&Step) -> bool);

/// Tells whether a number was used before.
fn used(session: &Session) -> bool {
    session.ours != Ours::Idle
}

/// Tells whether the call is an abort of an opening whose sides before pass the test.
fn takes_back(step: &Step, test: fn(Ours) -> bool) -> bool {
    let abort = matches!(step.call, Call::Abort { .. });
    let was = step.was(|session| session.ours == Ours::Opening && test(session.before.0));
    abort && step.ok() && was
}

/// Tells whether a connection that ran came to its end by this message or call.
fn ends(step: &Step, taken: fn(&Message) -> bool) -> bool {
    step.over && step.taken().is_some_and(|message| taken(&message))
}

/// All corners.
pub const CORNERS: [Corner; 40] = [
    ("turn: the ration cuts what waits", |step| {
        matches!(step.answer, Ok(Report::Turn(_))) && step.is(|session| session.waiting > 0)
    }),
    (
        "turn: the round goes past 127",
        |step| matches!(step.answer, Ok(Report::Turn(id)) if *id <= step.before.last && step.before.last < 127),
    ),
    (
        "turn: the same number again",
        |step| matches!(step.answer, Ok(Report::Turn(id)) if *id == step.before.last),
    ),
    ("turn: no bytes but eof", |step| {
        matches!(step.answer, Ok(Report::Turn(_))) && step.written == [0x84, step.written[1], 0, 0]
    }),
    ("turn: a full slot of 512 bytes at once", |step| {
        matches!(step.answer, Ok(Report::Turn(_))) && step.written.len() == TURN_ROOM
    }),
    (
        "turn: an opening sends its starting ration, and bytes remain",
        |step| step.cut_opening(),
    ),
    (
        "turn: an opening's eof is held back, as bytes remain",
        |step| step.cut_opening() && step.is(|session| session.finish),
    ),
    ("put: fills the slot", |step| {
        matches!(step.call, Call::Put { .. }) && step.ok() && step.is(|s| s.waiting == SLOT)
    }),
    ("put: no bytes", |step| {
        matches!(step.call, Call::Put { bytes, .. } if bytes.is_empty()) && step.ok()
    }),
    ("put: to an opening number", |step| {
        matches!(step.call, Call::Put { .. })
            && step.ok()
            && step.is(|session| session.ours == Ours::Opening)
    }),
    ("put or finish: after finish was asked", |step| {
        matches!(step.call, Call::Put { .. } | Call::Finish { .. })
            && step.refused(refusal::SIDE)
            && step.was(|session| session.finish)
    }),
    ("open: a number that was used before", |step| {
        matches!(step.call, Call::Open { .. }) && step.ok() && step.was(used)
    }),
    ("abort: an opening of an idle number", |step| {
        takes_back(step, |before| before == Ours::Idle)
    }),
    ("abort: an opening of a finished number", |step| {
        takes_back(step, |before| before == Ours::Finished)
    }),
    ("abort: an opening of an ended number", |step| {
        takes_back(step, |before| before == Ours::Ended)
    }),
    ("abort: of an opening with too little room", |step| {
        matches!(step.call, Call::Abort { .. })
            && step.refused(refusal::ROOM)
            && step.was(|session| session.ours == Ours::Opening)
    }),
    ("abort: drops bytes that waited", |step| {
        matches!(step.call, Call::Abort { .. }) && step.ok() && step.was(|s| s.waiting > 0)
    }),
    ("grant: fills the ration exactly", |step| {
        matches!(step.call, Call::Grant { .. })
            && step.ok()
            && step.is(|session| session.inbound == Ration::Finite(Ration::LARGEST))
    }),
    ("grant: past the largest", |step| {
        step.refused(refusal::GRANT_SUM) && step.was(|s| s.inbound != Ration::Endless)
    }),
    ("grant: to an endless ration", |step| {
        step.refused(refusal::GRANT_SUM) && step.was(|s| s.inbound == Ration::Endless)
    }),
    ("receive: Data of exactly the ration", |step| {
        step.data().is_some_and(|data| {
            let all = Ration::Finite(u32::from(data.length));
            data.length > 0 && step.was(|s| Engine::inbound_counts(s) && s.inbound == all)
        })
    }),
    ("receive: Data of no bytes at ration 0", |step| {
        step.data().is_some_and(|data| data.length == 0)
            && step.was(|s| Engine::inbound_counts(s) && s.inbound == Ration::Finite(0))
    }),
    ("receive: late Data longer than the ration was", |step| {
        step.data().is_some_and(|data| {
            let length = u32::from(data.length);
            step.was(|s| s.ours == Ours::Ended && s.inbound.spend(length).is_none())
        })
    }),
    (
        "receive: open Data for a number that was used before",
        |step| step.data().is_some_and(|data| data.open) && step.was(used),
    ),
    ("receive: increment fills the ration exactly", |step| {
        step.increment().is_some()
            && step.is(|session| session.outbound == Ration::Finite(Ration::LARGEST))
    }),
    ("receive: increment to an endless ration", |step| {
        step.increment().is_some() && step.is(|session| session.outbound == Ration::Endless)
    }),
    ("receive: Abort that crossed ours", |step| {
        matches!(step.taken(), Some(Message::Abort { .. }))
            && step.was(|s| s.ours == Ours::Ended && s.theirs != Theirs::Ended)
    }),
    ("receive: reply Abort drops bytes that waited", |step| {
        step.taken().is_some()
            && step.was(|session| session.waiting > 0)
            && step.is(|session| session.ours == Ours::Ended)
    }),
    ("receive: more bytes than one message", |step| {
        matches!((step.call, step.taken()), (Call::Receive { bytes, .. }, Some(message))
            if bytes.len() > message.size())
    }),
    (
        "violation while a session runs and one is opening",
        |step| step.violation() && step.before.running && step.before.opening,
    ),
    (
        "Shutdown taken while a session runs and one is opening",
        |step| step.shutdown() && step.before.running && step.before.opening,
    ),
    (
        "Error taken while a session runs and one is opening",
        |step| step.error() && step.before.running && step.before.opening,
    ),
    (
        "Error taken while a running session's far side is finished",
        |step| step.error() && step.finished_by_far(),
    ),
    (
        "Error taken while a running session's far side is finished, ours open",
        |step| step.error() && step.before.far_finished,
    ),
    (
        "Error taken while a running session's far side is finished, and ours",
        |step| step.error() && step.before.both_finished,
    ),
    (
        "Shutdown taken while a running session's far side is finished",
        |step| step.shutdown() && step.finished_by_far(),
    ),
    (
        "violation while a running session's far side is finished",
        |step| step.violation() && step.finished_by_far(),
    ),
    (
        "lost line while a running session's far side is finished",
        |step| matches!(step.call, Call::Lost) && step.ok() && step.finished_by_far(),
    ),
    (
        "violation 21: several bytes are wrong, the first is told",
        |step| {
            step.refused(refusal::RESERVED)
                && step.begins(|start| wire::wrong_reserved_bytes(start).count() > 1)
        },
    ),
    (
        "violation 22: several bytes are wrong, the first is told",
        |step| {
            step.refused(refusal::BAD_HEADER)
                && step.begins(|header| wire::wrong_header_bytes(header).count() > 1)
        },
    ),
];
