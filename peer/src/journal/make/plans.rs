//! The plans of scripts: what each does between the region's line and the last look.

use super::lines;
use super::Maker;
use crate::journal::script::Call;
use crate::journal::{put_check, Block, Entry, BLOCK, CHECK_AT, MARK_AT, MOST_BLOCKS, ZEROS_AT};
use crate::rng::Rng;

/// A region of at most this many blocks is filled whatever it is about.
const SOON_FULL: u32 = 12;

/// The plans.
impl Maker {
    /// Makes all kinds of calls on few blocks.
    pub(super) fn mixed(&mut self) {
        for _ in 0..self.rng.between(8, 32) {
            self.step();
        }
    }

    /// Stores starts and fates of few numbers and lists them often.
    pub(super) fn fates(&mut self) {
        for _ in 0..self.rng.between(6, 26) {
            let id = self.rng.one_of(&self.pool);
            let kind = self.rng.weighted(&[40, 17, 17, 26]) as u8;
            self.store_whole(id, kind);
            match self.rng.below(20) {
                0 => self.some_store(),
                1 => self.some_repair(),
                2 => self.harm(),
                3..=6 => drop(self.say(Call::List)),
                _ => {}
            }
        }
    }

    /// Makes all kinds of calls on a region of this many blocks, and fills it if it is soon full.
    pub(super) fn sized(&mut self, blocks: u32) {
        for _ in 0..self.rng.between(3, 14) {
            self.step();
        }
        self.say(Call::Block { number: blocks });
        if self.rng.percent(30) {
            let byte = self.rng.byte();
            self.damage(blocks as usize * BLOCK - 1, byte);
        }
        if blocks <= SOON_FULL {
            self.fill();
            for _ in 0..self.rng.below(6) {
                self.step();
            }
        }
    }

    /// Stores entries until no block is bad, and tries what a full region refuses.
    fn fill(&mut self) {
        loop {
            let id = self.rng.one_of(&self.pool);
            let kind = self.rng.below(4) as u8;
            if !self.store_whole(id, kind) {
                break;
            }
        }
        for _ in 0..3 {
            self.some_store();
        }
        self.some_repair();
    }

    /// Makes all kinds of calls on a region that they are refused for.
    pub(super) fn odd(&mut self) {
        for _ in 0..self.rng.between(5, 14) {
            self.step();
        }
        let blocks = (self.near.region.len() / BLOCK) as u32;
        self.say(Call::Block { number: blocks });
        self.say(Call::Block { number: blocks + 1 });
        self.say(Call::Repair { stores: None });
    }

    /// Fills 128 blocks, then harms one of them, stores there again and lists.
    ///
    /// Nothing is run here but lines are written alone, since reading so many blocks takes its time.
    pub(super) fn long(&mut self) {
        for _ in 0..MOST_BLOCKS {
            let id = self.rng.one_of(&self.pool);
            let kind = self.rng.weighted(&[40, 20, 20, 20]) as u8;
            if self.rng.percent(4) {
                let stores = Some(self.rng.below(512) as u32);
                self.write(Call::Store { id, kind, stores });
            }
            let stores = None;
            self.write(Call::Store { id, kind, stores });
            if self.rng.percent(2) {
                self.write(Call::List);
            }
        }
        self.full();
        self.full();
    }

    /// Tries what 128 good blocks refuse, and opens a gap that the next store fills.
    fn full(&mut self) {
        let stores = None;
        for (id, kind) in [(5, 0), (127, 3), (128, 0), (5, 4), (200, 9)] {
            self.write(Call::Store { id, kind, stores });
        }
        self.write(Call::Read);
        self.write(Call::List);
        self.write(Call::Repair { stores });
        let block = self.rng.below(MOST_BLOCKS as u64) as u32;
        let (place, byte) = (block * BLOCK as u32 + MARK_AT as u32, 0);
        self.write(Call::Damage { place, byte });
        self.write(Call::List);
        let (id, kind) = (self.rng.one_of(&self.pool), self.rng.below(4) as u8);
        self.write(Call::Store { id, kind, stores });
        for number in [block + 1, 128, 129] {
            self.write(Call::Block { number });
        }
    }

    /// Forms blocks by damage, right or with one fault, and stores or repairs there.
    pub(super) fn formed(&mut self) {
        for _ in 0..self.rng.between(1, 3) {
            for _ in 0..self.rng.below(3) {
                let id = self.rng.one_of(&self.pool);
                let kind = self.rng.below(4) as u8;
                self.store_whole(id, kind);
            }
            let bad = self.near.first_bad().ok().flatten().unwrap_or(1);
            let place = bad + u32::from(self.rng.percent(20));
            let id = self.rng.one_of(&self.pool);
            let block = faulty_block(&mut self.rng, place, id);
            self.form(place, &block);
            self.say(Call::Read);
            match self.rng.below(5) {
                0 => self.some_repair(),
                1 => self.some_store(),
                2 => drop(self.say(Call::List)),
                3 => self.look(),
                _ => {}
            }
        }
    }

    /// Writes lines at the edge of the language, and then one that is most likely past it.
    pub(super) fn lines(&mut self) {
        for _ in 0..self.rng.between(1, 6) {
            match self.rng.below(3) {
                0 => self.step(),
                _ => {
                    let line = lines::edge_line(&mut self.rng);
                    self.raw_line(&line);
                }
            }
        }
        if self.rng.percent(85) {
            self.bad_line();
        }
    }
}

/// Gives a serial that is not the place, but like it.
fn wrong_serial(rng: &mut Rng, place: u32) -> u32 {
    let wrong = [
        0,
        place - 1,
        place + 1,
        place + 256,
        place << 8,
        place.swap_bytes(),
        place | 1 << 24,
        u32::MAX,
    ];
    rng.one_of(&wrong)
}

/// Gives a block for a place from 1 that is right or breaks one rule; its check fits where it can.
fn faulty_block(rng: &mut Rng, place: u32, id: u8) -> Block {
    let mut entry = Entry {
        serial: place,
        id,
        kind: rng.below(4) as u8,
    };
    let fault = rng.below(9);
    match fault {
        0 => entry.id = rng.one_of(&[128, 129, 200, 255]),
        1 => entry.kind = rng.one_of(&[4, 5, 128, 255]),
        2 => entry.serial = wrong_serial(rng, place),
        _ => {}
    }
    let mut block = entry.block();
    match fault {
        3 => {
            let at = rng.one_of(&[ZEROS_AT, ZEROS_AT + 1, 300, CHECK_AT - 2, CHECK_AT - 1]);
            block[at] = rng.between(1, 255) as u8;
            put_check(&mut block);
        }
        4 | 5 => spoil_check(rng, &mut block),
        6 => block[MARK_AT] = rng.one_of(&[0, 0x5A, 0xA4, 0x25, 0xFF]),
        _ => {}
    }
    block
}

/// Makes a check wrong: in one bit, by its order of bytes, or by what it is taken over.
fn spoil_check(rng: &mut Rng, block: &mut Block) {
    use crate::crc::crc32c;
    let check = crc32c(&block[..CHECK_AT]);
    let wrong = match rng.below(6) {
        0 => check.swap_bytes(),
        1 => !check,
        2 => crc32c(&block[..CHECK_AT - 1]),
        3 => crc32c(&block[..4]),
        4 => 0,
        _ => check ^ (1 << rng.below(32)),
    };
    block[CHECK_AT..MARK_AT].copy_from_slice(&wrong.to_be_bytes());
}
