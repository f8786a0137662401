//! Lines at the edge of the script language of journals, and lines past it.

use crate::noise::{cut_last_word, insert_somewhere};
use crate::rng::Rng;

/// Gives a first line that is a script error.
pub fn bad_first_line(rng: &mut Rng) -> Vec<u8> {
    rng.one_of(&BAD_FIRST_LINES).to_vec()
}

/// Gives a line at the edge of what the language allows on a region that is not empty.
pub fn edge_line(rng: &mut Rng) -> Vec<u8> {
    rng.one_of(&EDGE_LINES).to_vec()
}

/// Gives a line that is most likely a script error on a region of this length.
pub fn bad_line(rng: &mut Rng, length: u32) -> Vec<u8> {
    let mut line = rng.one_of(&EDGE_LINES).to_vec();
    match rng.below(16) {
        0 => line.push(rng.one_of(b"  \t\r\0~\x7f\xffa0")),
        1 => line.insert(0, rng.one_of(b" \t\0")),
        2 => insert_somewhere(rng, &mut line),
        3 => line.make_ascii_uppercase(),
        4 => line.extend_from_slice(b" 0 0"),
        5 => cut_last_word(&mut line),
        6 => line = format!("damage {length} 0").into_bytes(),
        7 => line = format!("damage {} 0", u64::from(length) + rng.below(9)).into_bytes(),
        8 => line = [b"block ", &vec![b'1'; rng.between(10, 300) as usize][..]].concat(),
        9 => line = rng.bytes(12),
        _ => line = rng.one_of(&BAD_LINES).to_vec(),
    }
    line.retain(|&byte| byte != b'\n');
    line
}

/// First lines that are script errors, each by another rule.
pub(crate) const BAD_FIRST_LINES: [&[u8]; 26] = [
    b"region",
    b"region ",
    b"region  512",
    b" region 512",
    b"region 512 ",
    b"region 70001",
    b"region 1000000000",
    b"region 0512",
    b"region 00",
    b"region -1",
    b"region +512",
    b"region 512 1",
    b"region 512 512",
    b"region 5a",
    b"region 512\r",
    b"region\t512",
    b"region 512\0",
    b"Region 512",
    b"REGION 512",
    b"regions 512",
    b"client 4",
    b"store 5 0",
    b"repair",
    b"read",
    b"list",
    b"block 1",
];

/// Calls whose numbers are the largest or smallest that are allowed.
pub(crate) const EDGE_LINES: [&[u8]; 24] = [
    b"store 0 0",
    b"store 0 0 0",
    b"store 127 3",
    b"store 127 3 511",
    b"store 127 3 512",
    b"store 127 3 999",
    b"store 128 3",
    b"store 127 4",
    b"store 255 255 999",
    b"store 255 0 0",
    b"repair",
    b"repair 0",
    b"repair 511",
    b"repair 512",
    b"repair 999",
    b"read",
    b"list",
    b"damage 0 0",
    b"damage 0 255",
    b"block 0",
    b"block 1",
    b"block 128",
    b"block 129",
    b"block 999999999",
];

/// Lines that are script errors on every region, each by another rule.
pub(crate) const BAD_LINES: [&[u8]; 60] = [
    b"region 512",
    b"region",
    b"store",
    b"store ",
    b"store 5",
    b"store 5 ",
    b"store 5 0 ",
    b"store 5 0 1000",
    b"store 5 0 01",
    b"store 5 0 00",
    b"store 5 0 -",
    b"store 5 0 1 1",
    b"store 05 0",
    b"store 5 00",
    b"store 256 0",
    b"store 5 256",
    b"store  5 0",
    b"store 5  0",
    b" store 5 0",
    b"store 5 0\r",
    b"store\t5 0",
    b"store -1 0",
    b"store 5 +0",
    b"store 5 start",
    b"Store 5 0",
    b"stores 5 0",
    b"store 5 0 whole",
    b"repair ",
    b"repair 1000",
    b"repair 00",
    b"repair 1 1",
    b"repair none",
    b"read ",
    b"read 1",
    b"read\0",
    b"READ",
    b"list ",
    b"list 1",
    b"lists",
    b"damage",
    b"damage 0",
    b"damage 0 ",
    b"damage 0 256",
    b"damage 00 0",
    b"damage 0 00",
    b"damage 0 1 1",
    b"damage 0 a5",
    b"damage 70000 0",
    b"damage 999999999 0",
    b"block",
    b"block ",
    b"block 01",
    b"block 1 1",
    b"block -",
    b"block -1",
    b"block 1000000000",
    b"blocks 1",
    b"state",
    b"entry 1 id 5 kind 0",
    b"store ok serial 1",
];
