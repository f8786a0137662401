//! The plan with two whole ends and bytes on their way between them.

use super::{choose_header, Maker};
use crate::engine::Phase;
use crate::far::Far;
use crate::pick::{self, Mood};
use crate::play::Report;
use crate::script::{self, Call};
use crate::wire::{Message, Role};

/// The plan with two whole ends.
impl Maker {
    /// Plays both ends until the calls are used up, then brings the sessions to their end.
    pub(super) fn joined(&mut self) {
        let header = choose_header(&mut self.rng);
        let mut far = Far::new(self.first.role.other(), header);
        let closing = (self.limit / 5).min(200);
        while self.more() {
            let mood = if self.said + closing >= self.limit {
                Mood::Closing
            } else {
                Mood::Busy
            };
            self.joined_step(&mut far, mood);
        }
    }

    /// Does one thing at one of the ends, or moves bytes.
    pub(super) fn joined_step(&mut self, far: &mut Far, mood: Mood) {
        if self.noise_due() {
            self.noise();
            far.to_far.push(&self.near.written);
            return;
        }
        if self.rng.percent(1) {
            self.skipped_line();
        }
        match self.rng.weighted(&self.taste.tempo) {
            0 => self.near_step(far, mood),
            1 => far.act(&mut self.rng, &self.pool, mood),
            2 => self.deliver(far),
            _ => self.far_hears(far),
        }
    }

    /// Lets the far end take some of what is on its way to it.
    fn far_hears(&mut self, far: &mut Far) {
        for _ in 0..self.rng.between(1, 4) {
            if far.to_far.front().is_empty() || far.player.engine.over {
                break;
            }
            far.hear();
        }
    }

    /// Makes a call at the near end; what it writes goes on its way.
    fn near_step(&mut self, far: &mut Far, mood: Mood) {
        let engine = &self.near.engine;
        if self.rng.percent(self.taste.wild) {
            self.wild();
        } else if engine.phase == Phase::Fresh && engine.role == Role::Client {
            let _ = self.say(&Call::Start { room: None });
        } else if pick::runs(engine) {
            match pick::good_call(&mut self.rng, engine, &self.pool, mood) {
                Some(call) => drop(self.say(&call)),
                None => return,
            }
        } else {
            return;
        }
        far.to_far.push(&self.near.written);
    }

    /// Gives the near end the next bytes that are on their way to it, at times cut.
    fn deliver(&mut self, far: &mut Far) {
        let front = far.to_near.front();
        if front.is_empty() {
            return;
        }
        let whole = self.next_size(front);
        let count = if self.rng.percent(self.taste.cuts) {
            self.rng.below(whole as u64) as usize
        } else if self.rng.percent(15) {
            front.len().min(whole + 40)
        } else {
            whole
        };
        let bytes = front[..count].to_vec();
        let answer = self.receive(bytes);
        far.to_far.push(&self.near.written);
        if let Ok(Report::Taken(taken)) = answer {
            far.to_near.take(taken.used());
        }
    }

    /// Gives the size of the header or message at the front.
    fn next_size(&self, front: &[u8]) -> usize {
        let size = match self.near.engine.phase {
            Phase::Up(_) => match Message::read(front, self.first.role.other()) {
                Ok(message) => message.size(),
                Err(_) => front.len(),
            },
            _ => 8,
        };
        size.min(front.len()).min(script::LARGEST_RECEIVE)
    }
}
