//! The ends of scripts: the last event of the connection, and what is tried after it.

use super::Maker;
use crate::noise;
use crate::pick;
use crate::script::Call;
use crate::session::{Ours, Outcome, Session, Theirs};
use crate::wire::Role;

/// The end of every script.
impl Maker {
    /// Ends the connection in some way, tries calls after it, and looks at the whole state.
    pub(super) fn end(&mut self) {
        if !self.near.engine.over {
            self.leave_one_opening();
            self.last_event();
        }
        for _ in 0..self.rng.below(5) {
            let call = pick::wild_call(&mut self.rng, &self.pool, true);
            let _ = self.say_only(&call);
        }
        Call::State.write(&mut self.text);
        self.text.push(b'\n');
        let id = if self.first.queue.is_some() {
            self.rng.byte()
        } else {
            self.rng.one_of(&self.pool)
        };
        Call::Queue { id }.write(&mut self.text);
        self.text.push(b'\n');
        self.last_lines();
    }

    /// At times opens a number for which nothing will be sent.
    fn leave_one_opening(&mut self) {
        let engine = &self.near.engine;
        let id = pick::id_where(&mut self.rng, engine, &self.pool, Session::may_open);
        if let (Some(id), true) = (id, self.rng.percent(40)) {
            let _ = self.say(&Call::Open { id });
        }
    }

    /// Does one thing that may end the connection.
    fn last_event(&mut self) {
        let room = None;
        match self.rng.below(7) {
            0 => {
                let _ = self.say(&Call::Lost);
            }
            1 => {
                let _ = self.say(&Call::Shutdown { room });
            }
            2 => {}
            3 => {
                let bytes = noise::last_message(&mut self.rng);
                let _ = self.receive(bytes);
            }
            _ => self.noise(),
        }
    }

    /// At times adds a line that is a script error, or leaves out the last 0A.
    fn last_lines(&mut self) {
        if self.rng.percent(15) {
            let line = noise::bad_line(&mut self.rng, &self.pool);
            self.raw_line(&line);
            self.raw_line(b"state");
        }
        if self.rng.percent(10) {
            self.text.pop();
        }
    }
}

/// The plan whose end meets an answer that is all there.
impl Maker {
    /// Walks until the far side of a running session is finished, then most likely ends the connection.
    pub(super) fn answered(&mut self) {
        self.first.role = Role::Client;
        self.begin_again();
        self.taste.noise_from = u64::MAX;
        let ours = self.rng.one_of(&[Ours::Open, Ours::Finished]);
        let from = self.rng.below(self.limit / 2 + 1);
        self.connect();
        while self.more() && (self.said < from || !self.is_answered(ours)) {
            self.walk_step();
        }
        self.leave_one_opening();
        self.end_of_answered();
    }

    /// Tells whether the far side of a running session is finished and ours is as given.
    fn is_answered(&self, ours: Ours) -> bool {
        let sessions = &self.near.engine.sessions;
        let answered = |session: &Session| session.pair() == (ours, Theirs::Finished);
        let running = |session: &Session| session.outcome == Outcome::Running;
        sessions.iter().any(|s| answered(s) && running(s))
    }

    /// Ends the connection, mostly by a message that the far end sends as its last.
    fn end_of_answered(&mut self) {
        match self.rng.below(6) {
            0 => drop(self.say(&Call::Lost)),
            1 => self.noise(),
            _ => {
                let bytes = noise::last_message(&mut self.rng);
                let _ = self.receive(bytes);
            }
        }
    }
}
