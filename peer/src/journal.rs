//! The journal: entries in a lent region of blocks, of which a power cut leaves exactly the whole ones.

pub mod compare;
pub mod cover;
pub mod cuts;
pub mod make;
pub mod play;
pub mod script;
#[cfg(test)]
mod tests;

use crate::crc::crc32c;
use crate::wire::LARGEST_ID;

/// The bytes of a block.
pub const BLOCK: usize = 512;

/// The most blocks of a region.
pub const MOST_BLOCKS: usize = 128;

/// A store is refused with this for a number above 127.
pub const NUMBER: u8 = 3;

/// Every call is refused with this for a region that is not 1 to 128 whole blocks.
pub const REGION: u8 = 8;

/// A store is refused with this for a kind above 3.
pub const KIND: u8 = 12;

/// A store is refused with this where no block is bad.
pub const NO_BAD_BLOCK: u8 = 16;

/// The kinds of entries, by name.
pub const START: u8 = 0;
pub const COMPLETE: u8 = 1;
pub const RETRY: u8 = 2;
pub const NO_RETRY: u8 = 3;

/// Where the parts of a block begin behind its serial.
const NUMBER_AT: usize = 4;
const KIND_AT: usize = 5;
const ZEROS_AT: usize = 6;
const CHECK_AT: usize = 507;
const MARK_AT: usize = 511;

/// The last byte of a block that was stored whole.
const MARK: u8 = 0xA5;

/// The bytes of one block.
pub type Block = [u8; BLOCK];

/// How many byte stores are made before the power is cut; nothing where it is not cut.
pub type Stores = Option<u32>;

/// One entry of the journal.
#[derive(Clone, Copy, Debug, PartialEq, Eq)]
pub struct Entry {
    pub serial: u32,
    pub id: u8,
    pub kind: u8,
}

impl Entry {
    /// Gives the block that holds the entry, whatever its numbers are.
    pub fn block(&self) -> Block {
        let mut block = [0; BLOCK];
        block[..NUMBER_AT].copy_from_slice(&self.serial.to_be_bytes());
        block[NUMBER_AT] = self.id;
        block[KIND_AT] = self.kind;
        put_check(&mut block);
        block[MARK_AT] = MARK;
        block
    }

    /// Gives the entry that a block holds, whether the block is bad or not.
    pub fn of(block: &Block) -> Entry {
        Entry {
            serial: number_at(block, 0),
            id: block[NUMBER_AT],
            kind: block[KIND_AT],
        }
    }
}

/// Puts the check that fits the bytes before it.
fn put_check(block: &mut Block) {
    let check = crc32c(&block[..CHECK_AT]);
    block[CHECK_AT..MARK_AT].copy_from_slice(&check.to_be_bytes());
}

/// Gives the four bytes from a place on as a number, high byte first.
fn number_at(block: &Block, at: usize) -> u32 {
    block[at..at + 4]
        .iter()
        .fold(0, |number, &byte| (number << 8) | u32::from(byte))
}

/// A rule of a block's form: the part that it is about, and whether a block at a place from 1 keeps it.
pub type Rule = (&'static str, fn(&Block, u32) -> bool);

/// All rules of a block's form; a block is bad if it breaks one.
pub const RULES: [Rule; 6] = [
    ("mark", |block, _| block[MARK_AT] == MARK),
    ("serial", |block, place| number_at(block, 0) == place),
    ("number", |block, _| block[NUMBER_AT] <= LARGEST_ID),
    ("kind", |block, _| block[KIND_AT] <= NO_RETRY),
    ("zeros", |block, _| {
        block[ZEROS_AT..CHECK_AT].iter().all(|&byte| byte == 0)
    }),
    ("check", |block, _| {
        number_at(block, CHECK_AT) == crc32c(&block[..CHECK_AT])
    }),
];

/// Tells whether a block at a place from 1 is not as the journal forms it there.
pub fn is_bad(block: &Block, place: u32) -> bool {
    !RULES.iter().all(|(_, keeps)| keeps(block, place))
}

/// What became of the byte stores of a call.
#[derive(Clone, Copy, Debug, PartialEq, Eq)]
pub enum Written {
    /// All of them were made, to the block at this place from 1.
    Whole(u32),
    /// The power was cut after this many, fewer than a block has bytes.
    Cut(u32),
}

/// The journal, with the region that it is lent.
#[derive(Clone, Debug, PartialEq, Eq)]
pub struct Journal {
    pub region: Vec<u8>,
}

impl Journal {
    /// A journal on a region of zeros.
    pub fn new(length: usize) -> Journal {
        Journal {
            region: vec![0; length],
        }
    }

    /// Gives the block at a place from 1, if the region holds all of it.
    pub fn block(&self, place: u32) -> Option<&Block> {
        let start = (place as usize).checked_sub(1)?.checked_mul(BLOCK)?;
        self.region.get(start..)?.first_chunk()
    }

    /// Gives the number of whole blocks, if the region is one that a journal takes.
    pub fn blocks(&self) -> Result<u32, u8> {
        let blocks = self.region.len() / BLOCK;
        let rest = self.region.len() % BLOCK;
        if rest > 0 || blocks == 0 || blocks > MOST_BLOCKS {
            return Err(REGION);
        }
        Ok(blocks as u32)
    }

    /// Gives the place of the first bad block, if one is bad.
    pub fn first_bad(&self) -> Result<Option<u32>, u8> {
        let bad = |place: &u32| {
            self.block(*place)
                .is_some_and(|block| is_bad(block, *place))
        };
        Ok((1..=self.blocks()?).find(bad))
    }

    /// Gives the entries before the first bad block.
    pub fn read(&self) -> Result<Vec<Entry>, u8> {
        let end = self.first_bad()?.unwrap_or(self.blocks()? + 1);
        let blocks = (1..end).filter_map(|place| self.block(place));
        Ok(blocks.map(Entry::of).collect())
    }

    /// Gives the serials of the starts that are not to be retried.
    pub fn list(&self) -> Result<Vec<u32>, u8> {
        let entries = self.read()?;
        let starts = entries.iter().enumerate();
        let listed = starts.filter(|(place, start)| {
            start.kind == START && !is_settled(start.id, &entries[place + 1..])
        });
        Ok(listed.map(|(_, start)| start.serial).collect())
    }

    /// Stores an entry in the first bad block.
    pub fn store(&mut self, id: u8, kind: u8, stores: Stores) -> Result<Written, u8> {
        self.blocks()?;
        if id > LARGEST_ID {
            return Err(NUMBER);
        }
        if kind > NO_RETRY {
            return Err(KIND);
        }
        let serial = self.first_bad()?.ok_or(NO_BAD_BLOCK)?;
        let entry = Entry { serial, id, kind };
        Ok(self.write(serial, &entry.block(), stores))
    }

    /// Zeroes the first bad block, if one is bad.
    pub fn repair(&mut self, stores: Stores) -> Result<Option<Written>, u8> {
        let bad = self.first_bad()?;
        Ok(bad.map(|place| self.write(place, &[0; BLOCK], stores)))
    }

    /// Stores the bytes of a block front to back until the power is cut; those behind stay as they were.
    fn write(&mut self, place: u32, bytes: &Block, stores: Stores) -> Written {
        let start = (place as usize - 1) * BLOCK;
        let count = stores.map_or(BLOCK, |stores| BLOCK.min(stores as usize));
        self.region[start..start + count].copy_from_slice(&bytes[..count]);
        match count {
            BLOCK => Written::Whole(place),
            count => Written::Cut(count as u32),
        }
    }
}

/// Tells whether a start of this number, with these entries behind it, is complete or may be retried.
fn is_settled(id: u8, behind: &[Entry]) -> bool {
    let own = behind.iter().filter(|entry| entry.id == id);
    own.take_while(|entry| entry.kind != START)
        .any(|entry| matches!(entry.kind, COMPLETE | RETRY))
}
