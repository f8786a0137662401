//! Counts what journals' scripts reach: each kind of line, the corners of the rules, lengths of regions.

mod items;
mod step;

use super::play::Answer;
use super::script::{Call, LONGEST_REGION};
use super::{is_bad, Journal, BLOCK, MOST_BLOCKS};
use items::ITEMS;
use std::collections::BTreeMap;
use std::fmt::Write;
use step::Step;

/// Lengths of regions that are refused and that scripts should have; whole blocks come beside them.
const REFUSED_LENGTHS: [u32; 7] = [
    0,
    1,
    BLOCK as u32 - 1,
    BLOCK as u32 + 1,
    (MOST_BLOCKS * BLOCK) as u32 + 1,
    ((MOST_BLOCKS + 1) * BLOCK) as u32,
    LONGEST_REGION,
];

/// The state before a call.
#[derive(Clone, Copy)]
pub struct Before {
    /// How many entries could be read.
    readable: usize,
    /// Whether the first bad block had a byte that is not zero.
    torn: bool,
}

/// The counts.
pub struct Cover {
    pub scripts: u64,
    pub calls: u64,
    /// How many `damage` and `block` lines were played.
    pub looks: u64,
    first_errors: u64,
    later_errors: u64,
    /// How many scripts had no line but skipped ones.
    empty: u64,
    items: Vec<u64>,
    lengths: BTreeMap<u32, u64>,
    /// How many entries can be read now.
    readable: usize,
}

impl Default for Cover {
    fn default() -> Cover {
        Cover {
            scripts: 0,
            calls: 0,
            looks: 0,
            first_errors: 0,
            later_errors: 0,
            empty: 0,
            items: vec![0; ITEMS.len()],
            lengths: BTreeMap::new(),
            readable: 0,
        }
    }
}

/// The counting.
impl Cover {
    /// Notes the region of a script that begins.
    pub fn region(&mut self, length: u32) {
        *self.lengths.entry(length).or_default() += 1;
        self.readable = 0;
    }

    /// Notes the end of a script: whether it had a region, and whether no line was a script error.
    pub fn end(&mut self, region: bool, good: bool) {
        match (region, good) {
            (true, true) => {}
            (true, false) => self.later_errors += 1,
            (false, true) => self.empty += 1,
            (false, false) => self.first_errors += 1,
        }
    }

    /// Gives the state before a call.
    pub fn before(&self, journal: &Journal) -> Before {
        let next = journal.block(self.readable as u32 + 1);
        Before {
            readable: self.readable,
            torn: next.is_some_and(|block| block.iter().any(|&byte| byte != 0)),
        }
    }

    /// Gives how many entries can be read after a call, without a look at blocks that it cannot have changed.
    fn count_readable(&self, journal: &Journal, call: &Call) -> usize {
        let Ok(blocks) = journal.blocks() else {
            return 0;
        };
        let kept = match *call {
            Call::Read | Call::List | Call::Block { .. } => return self.readable,
            Call::Damage { place, .. } => self.readable.min(place as usize / BLOCK),
            Call::Store { .. } | Call::Repair { .. } => self.readable,
        };
        let good = |place: &u32| {
            let block = journal.block(*place);
            block.is_some_and(|block| !is_bad(block, *place))
        };
        let more = (kept as u32 + 1..=blocks).take_while(good);
        kept + more.count()
    }

    /// Counts a call that was just run.
    pub fn after(
        &mut self,
        journal: &Journal,
        call: &Call,
        before: Before,
        answer: &Result<Answer, u8>,
    ) {
        match call.is_journal_call() {
            true => self.calls += 1,
            false => self.looks += 1,
        }
        self.readable = self.count_readable(journal, call);
        let step = Step::new(journal, call, answer, before, self.readable);
        for ((_, reaches), times) in ITEMS.iter().zip(&mut self.items) {
            *times += u64::from(reaches(&step));
        }
    }
}

/// The report.
impl Cover {
    /// Gives how many script errors there were.
    pub fn script_errors(&self) -> u64 {
        self.first_errors + self.later_errors
    }

    /// Gives each kind of line and corner with how often it was reached.
    fn counts(&self) -> Vec<(String, u64)> {
        let names = ITEMS.iter().map(|(name, _)| name.to_string());
        let mut counts: Vec<(String, u64)> = names.zip(self.items.iter().copied()).collect();
        let scripts = [
            ("script error in the first line", self.first_errors),
            ("script error behind a region line", self.later_errors),
            ("no line but skipped ones", self.empty),
        ];
        counts.extend(scripts.map(|(name, times)| (name.to_string(), times)));
        for length in REFUSED_LENGTHS {
            counts.push((format!("region of {length} bytes"), self.times(length)));
        }
        counts
    }

    /// Gives how often a region had this length.
    fn times(&self, length: u32) -> u64 {
        self.lengths.get(&length).copied().unwrap_or(0)
    }

    /// Gives the numbers of whole blocks, from 1 to 128, that no region had.
    fn missing_blocks(&self) -> Vec<u32> {
        let all = 1..=MOST_BLOCKS as u32;
        all.filter(|blocks| self.times(blocks * BLOCK as u32) == 0)
            .collect()
    }

    /// Gives, in words, all that scripts can reach and these did not.
    pub fn missing(&self) -> Vec<String> {
        let never = |count: (String, u64)| (count.1 == 0).then_some(count.0);
        let mut missing: Vec<String> = self.counts().into_iter().filter_map(never).collect();
        let blocks = self.missing_blocks().into_iter();
        missing.extend(blocks.map(|blocks| format!("region of {blocks} whole blocks")));
        missing
    }

    /// Gives the report as text.
    pub fn report(&self) -> String {
        let mut text = String::new();
        let written = self.write_report(&mut text);
        written.expect("writing to memory does not fail");
        text
    }

    fn write_report(&self, text: &mut String) -> std::fmt::Result {
        writeln!(
            text,
            "Coverage: {} scripts, {} calls, {} damage and block lines, {} script errors",
            self.scripts,
            self.calls,
            self.looks,
            self.script_errors()
        )?;
        for (name, times) in self.counts() {
            writeln!(text, "  {name:<69} {times}")?;
        }
        let met = MOST_BLOCKS - self.missing_blocks().len();
        writeln!(text, "  regions of 1 to 128 whole blocks: {met} of 128")?;
        let missing = self.missing();
        if !missing.is_empty() {
            writeln!(text, "Not reached: {}", missing.join("; "))?;
        }
        Ok(())
    }
}
