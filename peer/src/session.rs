//! One session number, seen from one end: its two sides, its rations, its fate.

use crate::ration::Ration;
use crate::refusal::Violation;
use crate::wire::{effective, Data, Message, Role};

/// The most bytes that may wait in one number's slot of the queue.
pub const SLOT: usize = 512;

/// Our side of a number; idle where the number as a whole is idle.
#[derive(Clone, Copy, Debug, PartialEq, Eq, PartialOrd, Ord)]
pub enum Ours {
    Idle,
    Opening,
    Open,
    Finished,
    Ended,
}

/// The far side of a number; none while the number is idle or ours is opening.
#[derive(Clone, Copy, Debug, PartialEq, Eq, PartialOrd, Ord)]
pub enum Theirs {
    None,
    Open,
    Finished,
    Ended,
}

/// The fate of a client's session; a server's numbers keep `None`.
#[derive(Clone, Copy, Debug, PartialEq, Eq, PartialOrd, Ord)]
pub enum Outcome {
    None,
    Running,
    Complete,
    Retry,
    NoRetry,
}

impl Ours {
    /// Gives the word that `state` prints.
    pub fn word(self) -> &'static str {
        match self {
            Ours::Idle => "idle",
            Ours::Opening => "opening",
            Ours::Open => "open",
            Ours::Finished => "finished",
            Ours::Ended => "ended",
        }
    }
}

impl Theirs {
    /// Gives the word that `state` prints.
    pub fn word(self) -> &'static str {
        match self {
            Theirs::None => "none",
            Theirs::Open => "open",
            Theirs::Finished => "finished",
            Theirs::Ended => "ended",
        }
    }
}

impl Outcome {
    /// Gives the word that `state` prints.
    pub fn word(self) -> &'static str {
        match self {
            Outcome::None => "none",
            Outcome::Running => "running",
            Outcome::Complete => "complete",
            Outcome::Retry => "retry",
            Outcome::NoRetry => "no-retry",
        }
    }
}

/// The rations with which a new session begins.
#[derive(Clone, Copy, Debug)]
pub struct Starts {
    pub outbound: Ration,
    pub inbound: Ration,
}

/// What became of a message that was taken for a session.
#[derive(Clone, Copy, Debug, PartialEq, Eq)]
pub struct Effect {
    pub late: bool,
    pub reply_abort: bool,
}

const PLAIN: Effect = Effect {
    late: false,
    reply_abort: false,
};

const LATE: Effect = Effect {
    late: true,
    reply_abort: false,
};

#[derive(Clone, Copy, Debug)]
pub struct Session {
    pub ours: Ours,
    pub theirs: Theirs,
    /// The sides before the open; they count only while ours is opening.
    pub before: (Ours, Theirs),
    pub outcome: Outcome,
    pub outbound: Ration,
    pub inbound: Ration,
    pub waiting: usize,
    pub finish: bool,
}

impl Session {
    /// A number that was never used.
    pub const IDLE: Session = Session {
        ours: Ours::Idle,
        theirs: Theirs::None,
        before: (Ours::Idle, Theirs::None),
        outcome: Outcome::None,
        outbound: Ration::Finite(0),
        inbound: Ration::Finite(0),
        waiting: 0,
        finish: false,
    };

    /// Gives the two sides.
    pub fn pair(&self) -> (Ours, Theirs) {
        (self.ours, self.theirs)
    }

    /// Changes the fate if it is running.
    pub fn settle(&mut self, outcome: Outcome) {
        if self.outcome == Outcome::Running {
            self.outcome = outcome;
        }
    }

    /// Forgets the bytes that wait and the finish that was asked for.
    pub fn drop_waiting(&mut self) {
        self.waiting = 0;
        self.finish = false;
    }

    /// Tells whether a client may open the number.
    pub fn may_open(&self) -> bool {
        match self.ours {
            Ours::Idle => true,
            Ours::Finished | Ours::Ended => self.theirs == Theirs::Ended,
            Ours::Opening | Ours::Open => false,
        }
    }

    /// Tells whether a server takes an open Data message: the client's rule, sides exchanged.
    pub fn may_be_opened(&self) -> bool {
        match self.ours {
            Ours::Idle => true,
            Ours::Ended => matches!(self.theirs, Theirs::Finished | Theirs::Ended),
            Ours::Opening | Ours::Open | Ours::Finished => false,
        }
    }

    /// Tells whether put and finish are allowed.
    pub fn may_put(&self) -> bool {
        matches!(self.ours, Ours::Opening | Ours::Open) && !self.finish
    }

    /// Tells whether grant is allowed.
    pub fn may_grant(&self) -> bool {
        matches!(self.ours, Ours::Open | Ours::Finished) && self.theirs == Theirs::Open
    }

    /// Tells whether abort is allowed.
    pub fn may_abort(&self) -> bool {
        match self.ours {
            Ours::Opening | Ours::Open => true,
            Ours::Finished => self.theirs != Theirs::Ended,
            Ours::Idle | Ours::Ended => false,
        }
    }

    /// Tells whether a turn may serve the number.
    pub fn ready(&self) -> bool {
        match self.ours {
            Ours::Opening => true,
            Ours::Open if self.waiting > 0 => self.outbound != Ration::Finite(0),
            Ours::Open => self.finish,
            _ => false,
        }
    }

    /// Tells whether bytes wait that can only go after an increment.
    pub fn is_held_up(&self) -> bool {
        self.ours == Ours::Open && self.waiting > 0 && !self.ready()
    }

    /// Makes our side opening and remembers the sides before.
    pub fn open(&mut self) {
        self.before = self.pair();
        self.ours = Ours::Opening;
        self.theirs = Theirs::None;
        self.outcome = Outcome::Running;
    }

    /// Begins the session: both sides open, rations from the headers.
    pub fn begin(&mut self, starts: Starts) {
        self.ours = Ours::Open;
        self.theirs = Theirs::Open;
        self.outbound = starts.outbound;
        self.inbound = starts.inbound;
    }

    /// Undoes an open of which nothing was sent; the client may try again.
    pub fn take_back(&mut self) {
        (self.ours, self.theirs) = self.before;
        self.settle(Outcome::Retry);
        self.drop_waiting();
    }

    /// Ends our side by an Abort.
    pub fn end_ours(&mut self) {
        self.ours = Ours::Ended;
        self.drop_waiting();
    }

    /// Takes a session message from the far side, or gives 25, 26 or 27 and changes nothing.
    pub fn take(
        &mut self,
        role: Role,
        message: &Message,
        starts: Starts,
    ) -> Result<Effect, Violation> {
        match *message {
            Message::Data(data) if data.open => self.take_open(data, starts),
            _ if !self.far_established() => Err(Violation::STATE),
            Message::Data(data) => self.take_data(role, data),
            Message::Close { .. } => self.take_close(role),
            Message::Abort { partial, .. } => Ok(self.take_abort(role, partial)),
            Message::Increment {
                shift, increment, ..
            } => self.take_increment(effective(shift, increment)),
            _ => Ok(PLAIN),
        }
    }

    /// Tells whether the far side may send any message but an open.
    fn far_established(&self) -> bool {
        matches!(self.theirs, Theirs::Open | Theirs::Finished)
    }

    /// Takes an open Data message: a new session, whose length is spent at once.
    fn take_open(&mut self, data: Data, starts: Starts) -> Result<Effect, Violation> {
        if !self.may_be_opened() {
            return Err(Violation::STATE);
        }
        let inbound = spend(starts.inbound, data.length)?;
        self.begin(Starts { inbound, ..starts });
        if data.eof {
            self.theirs = Theirs::Finished;
        }
        Ok(PLAIN)
    }

    /// Takes Data without open; where our side is ended it is late and not counted.
    fn take_data(&mut self, role: Role, data: Data) -> Result<Effect, Violation> {
        if self.theirs == Theirs::Finished {
            return Err(Violation::STATE);
        }
        let late = self.ours == Ours::Ended;
        if !late {
            self.inbound = spend(self.inbound, data.length)?;
        }
        if data.eof {
            self.theirs = Theirs::Finished;
        }
        let reply_abort = data.close && self.closed_by_server(role);
        Ok(Effect { late, reply_abort })
    }

    /// Takes a Close, which only a finished side may send.
    fn take_close(&mut self, role: Role) -> Result<Effect, Violation> {
        if self.theirs != Theirs::Finished {
            return Err(Violation::STATE);
        }
        let reply_abort = self.closed_by_server(role);
        Ok(Effect {
            late: false,
            reply_abort,
        })
    }

    /// Ends the far side in the normal fashion; tells whether an open client owes an Abort.
    fn closed_by_server(&mut self, role: Role) -> bool {
        self.theirs = Theirs::Ended;
        self.settle(Outcome::Complete);
        role == Role::Client && self.ours == Ours::Open
    }

    /// Ends the far side by its Abort and says whether our side owes one.
    fn take_abort(&mut self, role: Role, partial: bool) -> Effect {
        self.theirs = Theirs::Ended;
        self.settle(if partial {
            Outcome::NoRetry
        } else {
            Outcome::Retry
        });
        let reply_abort = match self.ours {
            Ours::Open => true,
            Ours::Finished => role == Role::Server,
            _ => false,
        };
        Effect {
            late: false,
            reply_abort,
        }
    }

    /// Adds to the outbound ration; where our side sends no more it is late.
    fn take_increment(&mut self, amount: u32) -> Result<Effect, Violation> {
        if self.ours != Ours::Open {
            return Ok(LATE);
        }
        self.outbound = self.outbound.grow(amount).ok_or(Violation::OUTBOUND)?;
        Ok(PLAIN)
    }
}

/// Gives the ration less the length, or 26.
fn spend(ration: Ration, length: u16) -> Result<Ration, Violation> {
    ration.spend(u32::from(length)).ok_or(Violation::INBOUND)
}
