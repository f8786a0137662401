//! Single steps of a script: stores, repairs, damage and looks, chosen with what stands in mind.

use super::Maker;
use crate::journal::script::{Call, MOST_STORES};
use crate::journal::{Block, Entry, Stores, BLOCK, MARK, MARK_AT, ZEROS_AT};
use crate::rng::Rng;

/// The most bytes that are damaged to form a block.
const MOST_DAMAGE: usize = 12;

/// Chooses when the power is cut: mostly near the beginning or the end of a block.
fn cut(rng: &mut Rng) -> u32 {
    let stores = match rng.below(10) {
        0 => 0,
        1 | 2 => rng.between(1, 6),
        3..=6 => rng.between(506, 513),
        7 => rng.one_of(&[7, 505, 511, 512, u64::from(MOST_STORES)]),
        _ => rng.between(0, u64::from(MOST_STORES)),
    };
    stores as u32
}

/// Chooses whether and when the power is cut.
fn stores(rng: &mut Rng) -> Stores {
    rng.percent(45).then(|| cut(rng))
}

/// Chooses a kind: mostly one of the four.
fn kind(rng: &mut Rng) -> u8 {
    match rng.below(14) {
        0 => rng.one_of(&[4, 4, 5, 128, 255]),
        _ => rng.below(4) as u8,
    }
}

/// Chooses a place in a block, each part of it about as often.
fn place_in_block(rng: &mut Rng) -> usize {
    let place = match rng.below(8) {
        0 | 1 => rng.between(0, 3),
        2 => 4,
        3 => 5,
        4 => rng.one_of(&[ZEROS_AT as u64, 255, 506]),
        5 => rng.between(ZEROS_AT as u64, 506),
        6 => rng.between(507, 510),
        _ => MARK_AT as u64,
    };
    place as usize
}

/// The steps.
impl Maker {
    /// Makes one step by chance.
    pub(super) fn step(&mut self) {
        match self.rng.weighted(&[44, 9, 13, 9, 12, 6, 5, 3, 9]) {
            0 => self.some_store(),
            1 => self.some_repair(),
            2 => drop(self.say(Call::Read)),
            3 => drop(self.say(Call::List)),
            4 => self.harm(),
            5 => self.heal(),
            6 => self.complete(),
            7 => self.repair_a_serial(),
            _ => self.look(),
        }
    }

    /// Chooses a session number: mostly one of the pool.
    pub(super) fn id(&mut self) -> u8 {
        match self.rng.below(14) {
            0 => self.rng.one_of(&[0, 127, 128, 255]),
            1 => self.rng.byte(),
            _ => self.rng.one_of(&self.pool),
        }
    }

    /// Stores an entry, cut or whole, with numbers that are refused or not.
    pub(super) fn some_store(&mut self) {
        let id = self.id();
        let kind = kind(&mut self.rng);
        let stores = stores(&mut self.rng);
        self.say(Call::Store { id, kind, stores });
    }

    /// Repairs, cut or whole.
    pub(super) fn some_repair(&mut self) {
        let stores = stores(&mut self.rng);
        self.say(Call::Repair { stores });
    }

    /// Chooses a block: mostly one that can be read or the first bad one, counted from 0.
    fn block_index(&mut self) -> usize {
        let blocks = (self.near.region.len() / BLOCK).max(1) as u64;
        let bad = self.near.first_bad().ok().flatten().unwrap_or(1);
        let index = match self.rng.below(4) {
            0 => self.rng.below(blocks),
            1 => u64::from(bad - 1),
            _ => self.rng.below(u64::from(bad)),
        };
        index as usize
    }

    /// Damages a byte that lies in the region, to something else or not.
    pub(super) fn harm(&mut self) {
        let place = self.block_index() * BLOCK + place_in_block(&mut self.rng);
        let length = self.near.region.len();
        let place = match place < length {
            true => place,
            false => self.rng.below(length as u64) as usize,
        };
        let Some(&old) = self.near.region.get(place) else {
            return;
        };
        let byte = match self.rng.below(8) {
            0 => self.rng.byte(),
            1 => self.rng.one_of(&[0, 1, 3, 4, 127, 128, 255, MARK]),
            2 => old,
            _ => old ^ (1 << self.rng.below(8)),
        };
        self.damage(place, byte);
    }

    /// Damages one byte and keeps in mind what stood there.
    pub(super) fn damage(&mut self, place: usize, byte: u8) {
        let old = self.near.region[place];
        let place = place as u32;
        self.harmed.push((place, old));
        self.say(Call::Damage { place, byte });
    }

    /// Sets a damaged byte to what stood there before.
    fn heal(&mut self) {
        let Some((place, byte)) = self.harmed.pop() else {
            return self.harm();
        };
        self.say(Call::Damage { place, byte });
    }

    /// Makes the first bad block a good one by damage, or all but good.
    fn complete(&mut self) {
        let Ok(Some(serial)) = self.near.first_bad() else {
            return self.some_repair();
        };
        let Some(block) = self.near.block(serial) else {
            return;
        };
        let stands = Entry::of(block);
        let wanted = Entry { serial, ..stands };
        self.form(serial, &wanted.block());
    }

    /// Damages a high byte of a serial and repairs no more than that byte, or a little more.
    fn repair_a_serial(&mut self) {
        let place = self.rng.below(3) as u32;
        let at = self.block_index() * BLOCK + place as usize;
        if at >= self.near.region.len() {
            return;
        }
        let byte = self.rng.between(1, 255) as u8;
        self.damage(at, byte);
        let stores = Some(place + self.rng.below(3) as u32);
        self.say(Call::Repair { stores });
        self.say(Call::Read);
    }

    /// Damages bytes, in some order, until the block at this place is as wanted, if few bytes differ.
    pub(super) fn form(&mut self, place: u32, wanted: &Block) {
        let Some(block) = self.near.block(place) else {
            return;
        };
        let differs = |at: &usize| block[*at] != wanted[*at];
        let mut places: Vec<usize> = (0..BLOCK).filter(differs).collect();
        if places.len() > MOST_DAMAGE {
            return self.some_repair();
        }
        while !places.is_empty() {
            let next = self.rng.below(places.len() as u64) as usize;
            let at = places.swap_remove(next);
            self.damage((place as usize - 1) * BLOCK + at, wanted[at]);
            if self.rng.percent(4) {
                self.say(Call::Read);
            }
        }
    }

    /// Prints a block: mostly one of the region, at times one behind it.
    pub(super) fn look(&mut self) {
        let blocks = (self.near.region.len() / BLOCK) as u32;
        let number = match self.rng.below(8) {
            0 => blocks + self.rng.below(3) as u32,
            1 => self.rng.one_of(&[0, 1, 128, 129, 136, 137, 999_999_999]),
            2 => self.rng.below(140) as u32,
            _ => self.block_index() as u32 + 1,
        };
        self.say(Call::Block { number });
    }
}
