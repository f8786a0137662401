//! Short histories whose last store or repair is cut after a chosen number of byte stores.

use super::BLOCK;

/// The largest number of byte stores after which a history is cut; there all of them are made.
pub const LARGEST_CUT: u32 = BLOCK as u32;

/// A history up to the call that is cut.
pub struct History {
    pub name: &'static str,
    /// How many blocks the region has.
    pub blocks: u32,
    /// The lines before the call that is cut.
    pub before: &'static [&'static str],
    /// The call that is cut, without its number of byte stores.
    pub call: &'static str,
    /// The block that the call writes to.
    pub block: u32,
    /// Whether only the journal wrote the region.
    pub written_by_journal: bool,
}

/// All histories.
pub const HISTORIES: [History; 10] = [
    History {
        name: "the first store",
        blocks: 2,
        before: &[],
        call: "store 5 0",
        block: 1,
        written_by_journal: true,
    },
    History {
        name: "a store in the region's last block",
        blocks: 3,
        before: &["store 5 0", "store 5 1"],
        call: "store 7 0",
        block: 3,
        written_by_journal: true,
    },
    History {
        name: "a store over a store that was cut",
        blocks: 3,
        before: &["store 5 0", "store 127 2 511"],
        call: "store 7 0",
        block: 2,
        written_by_journal: true,
    },
    History {
        name: "a store over the same store, cut at its end",
        blocks: 3,
        before: &["store 5 0", "store 7 3 511"],
        call: "store 7 3",
        block: 2,
        written_by_journal: true,
    },
    History {
        name: "a store over a repair that was cut",
        blocks: 3,
        before: &["store 5 0", "store 6 3 511", "repair 5"],
        call: "store 7 0",
        block: 2,
        written_by_journal: true,
    },
    History {
        name: "a repair of a store that was cut",
        blocks: 3,
        before: &["store 5 0", "store 6 1 511"],
        call: "repair",
        block: 2,
        written_by_journal: true,
    },
    History {
        name: "a repair of a block of zeros",
        blocks: 3,
        before: &["store 5 0"],
        call: "repair",
        block: 2,
        written_by_journal: true,
    },
    History {
        name: "a repair of a damaged block before a good one",
        blocks: 4,
        before: &["store 5 0", "store 5 3", "store 5 0", "damage 1023 0"],
        call: "repair",
        block: 2,
        written_by_journal: false,
    },
    History {
        name: "a repair of a damaged serial before a good block",
        blocks: 4,
        before: &["store 5 0", "store 5 3", "store 5 2", "damage 513 9"],
        call: "repair",
        block: 2,
        written_by_journal: false,
    },
    History {
        name: "a store over a damaged block that has its mark",
        blocks: 3,
        before: &["store 5 0", "store 5 3", "damage 517 2"],
        call: "store 5 3",
        block: 2,
        written_by_journal: false,
    },
];

impl History {
    /// Gives the script of the history, its last call cut after so many byte stores.
    ///
    /// Behind the cut it reads, lists and prints the block, then stores again, reads and lists.
    pub fn script(&self, cut: u32) -> Vec<u8> {
        let length = self.blocks as usize * BLOCK;
        let (name, call, block) = (self.name, self.call, self.block);
        let mut script = format!("# {name}, cut after {cut} byte stores\nregion {length}\n");
        for line in self.before {
            script += &format!("{line}\n");
        }
        script += &format!("{call} {cut}\nread\nlist\nblock {block}\n");
        script += "store 9 0\nread\nlist\n";
        script.into_bytes()
    }
}

/// Gives the script of every history at every cut, with a title.
pub fn all() -> impl Iterator<Item = (String, Vec<u8>)> {
    let title = |number, cut| format!("History {number}, cut after {cut} byte stores");
    let each = move |cut| {
        let histories = (1..).zip(&HISTORIES);
        histories.map(move |(number, history)| (title(number, cut), history.script(cut)))
    };
    (0..=LARGEST_CUT).flat_map(each)
}
