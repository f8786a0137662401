//! The plans with the near end alone, fed with what the maker thinks of.

use super::{choose_header, Maker};
use crate::noise::{self, Wrong};
use crate::pick::{self, Mood};
use crate::ration::Ration;
use crate::script::{self, Call};
use crate::wire::{write_header, Role};

/// The plans with the near end alone.
impl Maker {
    /// Exchanges the headers at once.
    pub(super) fn connect(&mut self) {
        if self.first.role == Role::Client {
            let _ = self.say(&Call::Start { room: None });
        }
        let header = choose_header(&mut self.rng);
        let _ = self.say(&Call::Receive {
            bytes: write_header(header).to_vec(),
            room: None,
        });
    }

    /// Makes calls and feeds single messages by chance.
    pub(super) fn walk(&mut self) {
        self.connect();
        while self.more() {
            self.walk_step();
        }
    }

    /// Makes a call or feeds a message.
    pub(super) fn walk_step(&mut self) {
        if self.noise_due() {
            return self.noise();
        }
        if self.rng.percent(self.taste.wild) {
            return self.wild();
        }
        let engine = &self.near.engine;
        if self.rng.percent(45) {
            let call = pick::good_call(&mut self.rng, engine, &self.pool, Mood::Busy);
            if let Some(call) = call {
                let _ = self.say(&call);
            }
            return;
        }
        let mut bytes = self.some_message();
        if self.rng.percent(self.taste.cuts) {
            bytes.truncate(self.rng.below(bytes.len() as u64) as usize);
        } else if self.rng.percent(5) {
            let more = self.rng.below(6) as usize;
            bytes.extend(self.rng.bytes(more));
        }
        let _ = self.receive(bytes);
    }

    /// Gives a message that the near end takes.
    fn some_message(&mut self) -> Vec<u8> {
        let engine = &self.near.engine;
        if self.rng.percent(self.taste.brim) {
            let id = self.rng.one_of(&self.pool);
            if let Some(message) = pick::brim_increment(engine, id) {
                return message.start().to_vec();
            }
        }
        pick::good_message(&mut self.rng, engine, &self.pool)
    }

    /// Makes calls before and around the connection headers, then walks on.
    pub(super) fn headers(&mut self) {
        for _ in 0..self.rng.below(14) {
            if self.more() {
                self.header_step();
            }
        }
        while self.more() && pick::runs(&self.near.engine) {
            self.walk_step();
        }
    }

    /// Makes one call that belongs around the headers, or does not.
    fn header_step(&mut self) {
        let good = write_header(choose_header(&mut self.rng)).to_vec();
        match self.rng.below(10) {
            0..=2 => {
                let room = if self.rng.percent(50) {
                    pick::room(&mut self.rng)
                } else {
                    None
                };
                let _ = self.say(&Call::Start { room });
            }
            3 => {
                let _ = self.receive(good);
            }
            4 => {
                let bytes = noise::bad_header(&mut self.rng);
                let cut = self.rng.percent(50);
                let end = if cut { self.rng.below(8) } else { 8 };
                let _ = self.receive(bytes[..end as usize].to_vec());
            }
            5 => {
                let end = self.rng.below(8) as usize;
                let _ = self.receive(good[..end].to_vec());
            }
            _ => {
                let ends = self.rng.percent(20);
                let call = pick::wild_call(&mut self.rng, &self.pool, ends);
                let _ = self.say(&call);
            }
        }
    }

    /// Walks a little, without damage.
    fn short_walk(&mut self) {
        self.limit = self.limit.min(self.rng.between(3, 24));
        self.taste.noise_from = u64::MAX;
        self.walk();
    }

    /// Walks a little, then gives a message with this first byte.
    pub(super) fn first_byte(&mut self, first: u8) {
        self.short_walk();
        let number = self.rng.one_of(&[0, 0, 0, 1, 256]);
        let bytes = noise::with_first_byte(&mut self.rng, &self.pool, first, number);
        let room = None;
        let _ = self.say(&Call::Receive { bytes, room });
    }

    /// Gives a header or message that is wrong at chosen places, at times cut first, at times with more behind it.
    pub(super) fn wrong_bytes(&mut self, wrong: Wrong) {
        let mut bytes = match wrong {
            Wrong::Header(places) => {
                self.before_the_header();
                noise::wrong_header(&mut self.rng, places)
            }
            Wrong::Message(places) => {
                self.short_walk();
                noise::wrong_message(&mut self.rng, &self.pool, places)
            }
        };
        let room = None;
        if self.rng.percent(25) {
            let bytes = bytes[..self.rng.below(4) as usize].to_vec();
            let _ = self.say(&Call::Receive { bytes, room });
        }
        if self.rng.percent(25) {
            let more = self.rng.below(6) as usize;
            bytes.extend(self.rng.bytes(more));
        }
        let _ = self.say(&Call::Receive { bytes, room });
    }

    /// Makes the calls that come before the far header: a client's start, and a few by chance.
    fn before_the_header(&mut self) {
        if self.first.role == Role::Client {
            let _ = self.say(&Call::Start { room: None });
        }
        for _ in 0..self.rng.below(4) {
            self.wild();
        }
    }

    /// Writes lines at the edge of the script language, with a bad one among them.
    pub(super) fn odd_lines(&mut self) {
        if self.rng.percent(40) {
            let line = noise::bad_first_line(&mut self.rng);
            self.text.clear();
            self.raw_line(&line);
        }
        self.limit = self.limit.min(30);
        self.connect();
        while self.more() {
            let line = noise::edge_line(&mut self.rng);
            if self.rng.percent(4) {
                let line = noise::bad_line(&mut self.rng, &self.pool);
                self.raw_line(&line);
            } else if let (Some(call), true) = (script::read_call(&line), self.rng.percent(40)) {
                let _ = self.say(&call);
            } else {
                self.walk_step();
            }
        }
    }

    /// Grants one number all that its inbound ration can hold, then one more.
    pub(super) fn long_grant(&mut self) {
        self.first.header = 65_535;
        self.begin_again();
        self.connect();
        let id = self.rng.one_of(&self.pool);
        self.open_for_grants(id);
        let mut left = Ration::LARGEST - 65_535 * Ration::UNIT;
        while left > 0 && !self.near.engine.over {
            let amount = left.min(65_535);
            let room = None;
            let _ = self.say_only(&Call::Grant { id, amount, room });
            left -= amount;
        }
        self.around_the_full_ration(id);
    }

    /// Opens a session at the near end, whichever role it has.
    fn open_for_grants(&mut self, id: u8) {
        match self.first.role {
            Role::Client => {
                let _ = self.say(&Call::Open { id });
                let _ = self.say(&Call::Turn { room: None });
            }
            Role::Server => {
                let bytes = vec![0x90, id, 0, 0];
                let _ = self.say(&Call::Receive { bytes, room: None });
            }
        }
    }

    /// Grants to a full ration, takes some bytes, and grants again to the last byte.
    fn around_the_full_ration(&mut self, id: u8) {
        let room = None;
        let one = Call::Grant {
            id,
            amount: 1,
            room,
        };
        let five = Call::Grant {
            id,
            amount: 5,
            room,
        };
        let data = Call::Receive {
            bytes: vec![0x80, id, 0, 5, 1, 2, 3, 4, 5],
            room,
        };
        for call in [&one, &Call::State, &data, &five, &one, &data, &one, &five] {
            let _ = self.say_only(call);
        }
    }
}
