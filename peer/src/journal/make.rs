//! Makes random scripts for journals: the same seed always gives the same script.
//!
//! The maker plays the script as it grows, so that it knows what stands in the region.

mod lines;
mod plans;
mod steps;

#[cfg(test)]
pub(super) use lines::{BAD_FIRST_LINES, BAD_LINES, EDGE_LINES};

use super::play::{self, Answer};
use super::script::{self, Call, LONGEST_REGION};
use super::{Journal, Written, BLOCK, MOST_BLOCKS};
use crate::rng::Rng;

/// One of this many seeds has the next number of whole blocks; 1,024 seeds in a row have all 128.
const SIZED_EVERY: u64 = 8;
const SIZED_SEED: u64 = 3;

/// One of this many seeds has the next of `ODD_LENGTHS`; 128 seeds in a row have all of them.
const ODD_EVERY: u64 = 8;
const ODD_SEED: u64 = 6;

/// One of this many seeds fills the longest region.
const LONG_EVERY: u64 = 256;
const LONG_SEED: u64 = 77;

/// Lengths of regions that calls are refused for; nothing stands for any length.
const ODD_LENGTHS: [Option<u32>; 16] = [
    Some(0),
    Some(1),
    Some(BLOCK as u32 - 1),
    Some(BLOCK as u32 + 1),
    None,
    Some(2 * BLOCK as u32 - 1),
    Some(2 * BLOCK as u32 + 1),
    Some((MOST_BLOCKS * BLOCK) as u32 - 1),
    None,
    Some((MOST_BLOCKS * BLOCK) as u32 + 1),
    Some(((MOST_BLOCKS + 1) * BLOCK) as u32),
    Some(LONGEST_REGION),
    None,
    Some(((MOST_BLOCKS + 1) * BLOCK) as u32 - 1),
    Some(BLOCK as u32 / 2),
    None,
];

/// What a script is about.
#[derive(Clone, Copy, Debug, PartialEq, Eq)]
enum Plan {
    /// All calls by chance, on few blocks.
    Mixed,
    /// Starts and fates of few numbers, listed often.
    Fates,
    /// Blocks that damage forms byte by byte, right or with one fault.
    Formed,
    /// All calls by chance, on this many blocks.
    Sized(u32),
    /// A region of a length that calls are refused for.
    Odd(Option<u32>),
    /// A history that fills the longest region.
    Long,
    /// Lines at the edge of the script language, and past it.
    Lines,
}

struct Maker {
    rng: Rng,
    text: Vec<u8>,
    /// The journal as the script leaves it so far.
    near: Journal,
    /// The numbers that most stores are for.
    pool: Vec<u8>,
    /// The places that were damaged, with the byte that stood there before.
    harmed: Vec<(u32, u8)>,
}

/// Makes the script of a seed.
pub fn make(seed: u64) -> Vec<u8> {
    let mut rng = Rng::new(seed);
    let plan = choose_plan(&mut rng, seed);
    let length = choose_length(&mut rng, plan);
    let mut maker = Maker {
        pool: choose_pool(&mut rng),
        rng,
        text: Vec::new(),
        near: Journal::new(length as usize),
        harmed: Vec::new(),
    };
    if plan == Plan::Lines && maker.rng.percent(10) {
        maker.skipped_lines();
        return maker.text;
    }
    maker.begin(plan);
    match plan {
        Plan::Mixed => maker.mixed(),
        Plan::Fates => maker.fates(),
        Plan::Formed => maker.formed(),
        Plan::Sized(blocks) => maker.sized(blocks),
        Plan::Odd(_) => maker.odd(),
        Plan::Long => maker.long(),
        Plan::Lines => maker.lines(),
    }
    maker.end();
    maker.text
}

/// Chooses what the script is about: by the seed, or else by chance.
fn choose_plan(rng: &mut Rng, seed: u64) -> Plan {
    let plans = [Plan::Mixed, Plan::Fates, Plan::Formed, Plan::Lines];
    let plan = plans[rng.weighted(&[45, 25, 18, 12])];
    if seed % SIZED_EVERY == SIZED_SEED {
        let next = seed / SIZED_EVERY % MOST_BLOCKS as u64;
        return Plan::Sized(next as u32 + 1);
    }
    if seed % ODD_EVERY == ODD_SEED {
        let next = seed / ODD_EVERY % ODD_LENGTHS.len() as u64;
        return Plan::Odd(ODD_LENGTHS[next as usize]);
    }
    if seed % LONG_EVERY == LONG_SEED {
        return Plan::Long;
    }
    plan
}

/// Chooses the region's length: mostly few blocks, so that they fill.
fn choose_length(rng: &mut Rng, plan: Plan) -> u32 {
    let blocks = match plan {
        Plan::Odd(Some(length)) => return length,
        Plan::Odd(None) => return rng.below(u64::from(LONGEST_REGION) + 1) as u32,
        Plan::Sized(blocks) => u64::from(blocks),
        Plan::Long => MOST_BLOCKS as u64,
        Plan::Fates => rng.between(4, 30),
        Plan::Mixed | Plan::Formed | Plan::Lines => rng.one_of(&[1, 1, 2, 2, 3, 3, 4, 5, 6]),
    };
    blocks as u32 * BLOCK as u32
}

/// Chooses the numbers that most stores are for: few, so that they meet often.
fn choose_pool(rng: &mut Rng) -> Vec<u8> {
    let count = rng.one_of(&[1, 2, 2, 3, 4]);
    let number = |rng: &mut Rng| match rng.below(4) {
        0 => rng.one_of(&[0, 1, 127]),
        _ => rng.below(128) as u8,
    };
    (0..count).map(|_| number(rng)).collect()
}

impl Maker {
    /// Writes the first line, at times after lines that are skipped.
    fn begin(&mut self, plan: Plan) {
        while self.rng.percent(8) {
            self.skipped_line();
        }
        if plan == Plan::Lines && self.rng.percent(35) {
            let line = lines::bad_first_line(&mut self.rng);
            return self.raw_line(&line);
        }
        let mut line = Vec::new();
        script::write_first(self.near.region.len() as u32, &mut line);
        self.raw_line(&line);
    }

    /// Looks at what stands, and ends the script in some way.
    fn end(&mut self) {
        self.say(Call::Read);
        self.say(Call::List);
        if self.rng.percent(30) {
            self.look();
        }
        if self.rng.percent(6) {
            self.bad_line();
        }
        if self.rng.percent(10) {
            self.text.pop();
        }
    }

    /// Adds a line that is most likely a script error, and a call behind it.
    fn bad_line(&mut self) {
        let length = self.near.region.len() as u32;
        let line = lines::bad_line(&mut self.rng, length);
        self.raw_line(&line);
        self.raw_line(b"read");
    }

    /// Adds a line as it is.
    fn raw_line(&mut self, line: &[u8]) {
        self.text.extend_from_slice(line);
        self.text.push(b'\n');
    }

    /// Adds a few lines that are skipped, or none.
    fn skipped_lines(&mut self) {
        for _ in 0..self.rng.below(4) {
            self.skipped_line();
        }
    }

    /// Adds a line that is skipped: empty, or a comment with any bytes in it.
    fn skipped_line(&mut self) {
        let mut line = Vec::new();
        if self.rng.percent(60) {
            line.push(b'#');
            let count = self.rng.below(12) as usize;
            line.extend(self.rng.bytes(count));
            line.retain(|&byte| byte != b'\n');
        }
        self.raw_line(&line);
    }

    /// Adds a call's line.
    fn write(&mut self, call: Call) {
        call.write(&mut self.text);
        self.text.push(b'\n');
    }

    /// Adds a call's line and runs it; a read or a look has nothing to run.
    fn say(&mut self, call: Call) -> Option<Answer> {
        if self.rng.percent(2) {
            self.skipped_line();
        }
        self.write(call);
        match call {
            Call::Read | Call::List | Call::Block { .. } => None,
            _ => play::run(&mut self.near, &call).ok(),
        }
    }

    /// Stores an entry whole; tells whether it was taken.
    fn store_whole(&mut self, id: u8, kind: u8) -> bool {
        let stores = None;
        let answer = self.say(Call::Store { id, kind, stores });
        matches!(answer, Some(Answer::Stored(Written::Whole(_))))
    }
}

#[cfg(test)]
mod tests {
    use super::*;
    use std::collections::BTreeSet;

    #[test]
    fn the_same_seed_gives_the_same_script() {
        for seed in 0..300 {
            assert_eq!(make(seed), make(seed));
        }
    }

    #[test]
    fn scripts_differ_and_most_are_short() {
        let scripts: BTreeSet<Vec<u8>> = (0..1024).map(make).collect();
        assert!(scripts.len() > 1000);
        let lines = |script: &&Vec<u8>| script.split(|&byte| byte == b'\n').count() <= 45;
        assert!(scripts.iter().filter(lines).count() > 950);
    }
}
