//! The journal's rules, sentence by sentence, played as scripts.

#[path = "common/journal.rs"]
mod common;

use common::{last, on_blocks, play};
use peer::crc::crc32c;

/// Gives the `block` line of a block whose serial, number, kind and check are given in hex.
fn block(start: &str, check: &str) -> String {
    format!("block {start}{}{check}a5", "00".repeat(501))
}

/// The blocks of serial 1, number 5, kind 0 and of serial 2, number 5, kind 3.
const FIRST: (&str, &str) = ("000000010500", "346c5e94");
const SECOND: (&str, &str) = ("000000020503", "961a6b15");

#[test]
fn published_checks() {
    let counting: Vec<u8> = (0..32).collect();
    let backwards: Vec<u8> = (0..32).rev().collect();
    assert_eq!(crc32c(b"123456789"), 0xE306_9283);
    assert_eq!(crc32c(&[0; 32]), 0x8A91_36AA);
    assert_eq!(crc32c(&[0xFF; 32]), 0x62A8_AB43);
    assert_eq!(crc32c(&counting), 0x46DD_794E);
    assert_eq!(crc32c(&backwards), 0x113F_DB5C);
}

#[test]
fn every_journal_call_is_refused_for_a_wrong_region() {
    let lines = [
        "store 5 0",
        "store 200 9 0",
        "repair",
        "repair 0",
        "read",
        "list",
    ];
    let words = ["store", "store", "repair", "repair", "read", "list"];
    let wanted = words.map(|word| format!("{word} refused 8"));
    for length in [0, 1, 511, 513, 1023, 1025, 65_535, 65_537, 66_048, 70_000] {
        let region = format!("region {length}");
        let mut all = vec![region.as_str()];
        all.extend(lines);
        assert_eq!(play(&all), wanted, "{length}");
    }
}

#[test]
fn a_region_is_1_to_128_whole_blocks() {
    for blocks in 1..=128 {
        let number = format!("block {blocks}");
        let lines = on_blocks(blocks, &["read", "list", "store 5 0", &number, "repair"]);
        assert_eq!(lines[..3], ["read ok 0", "list ok", "store ok serial 1"]);
        assert_ne!(lines[3], "block none");
        let wanted = match blocks {
            1 => "repair ok none",
            _ => "repair ok block 2",
        };
        assert_eq!(lines[4], wanted);
    }
}

#[test]
fn the_form_of_a_block() {
    let lines = on_blocks(2, &["store 5 0", "store 5 3", "block 1", "block 2"]);
    assert_eq!(lines[2], block(FIRST.0, FIRST.1));
    assert_eq!(lines[3], block(SECOND.0, SECOND.1));
    let mut lines = vec!["store 9 0"; 127];
    lines.extend(["store 0 1", "block 128"]);
    let lines = on_blocks(128, &lines);
    assert_eq!(last(lines), block("000000800001", "083a211f"));
}

#[test]
fn a_block_is_bad_if_any_byte_of_it_is_wrong() {
    for place in 512..1024 {
        let damage = format!("damage {place} 239");
        let lines = ["store 5 0", "store 5 3", "store 5 1", &damage, "read"];
        let wanted = ["damage ok", "read ok 1", "entry 1 id 5 kind 0"];
        assert_eq!(on_blocks(3, &lines)[3..], wanted, "{place}");
    }
}

/// Gives lines that write a block with this start, its check and its mark by damage alone.
fn formed(at: usize, start: [u8; 6], change: Option<(usize, u8)>) -> Vec<String> {
    let mut block = [0; 512];
    block[..6].copy_from_slice(&start);
    if let Some((place, byte)) = change {
        block[place] = byte;
    }
    let check = crc32c(&block[..507]);
    block[507..511].copy_from_slice(&check.to_be_bytes());
    block[511] = 0xA5;
    let places = (0..512).filter(|place| block[*place] != 0);
    let line = |place: usize| format!("damage {} {}", at + place, block[place]);
    places.map(line).collect()
}

/// Gives the first line of a read of a region of two blocks, the first formed by damage.
fn read_formed(start: [u8; 6], change: Option<(usize, u8)>) -> String {
    let mut lines = formed(0, start, change);
    lines.push("read".to_string());
    let lines: Vec<&str> = lines.iter().map(String::as_str).collect();
    let lines = on_blocks(2, &lines);
    let read = lines.iter().find(|line| line.starts_with("read"));
    read.unwrap().clone()
}

#[test]
fn a_check_that_fits_does_not_make_up_for_another_fault() {
    assert_eq!(read_formed([0, 0, 0, 1, 5, 0], None), "read ok 1");
    assert_eq!(read_formed([0, 0, 0, 1, 127, 3], None), "read ok 1");
    for start in [
        [0, 0, 0, 0, 5, 0],
        [0, 0, 0, 2, 5, 0],
        [1, 0, 0, 0, 5, 0],
        [0, 0, 1, 1, 5, 0],
        [0, 0, 0, 1, 128, 0],
        [0, 0, 0, 1, 5, 4],
    ] {
        assert_eq!(read_formed(start, None), "read ok 0", "{start:?}");
    }
    for place in 6..507 {
        let read = read_formed([0, 0, 0, 1, 5, 0], Some((place, 1)));
        assert_eq!(read, "read ok 0", "{place}");
    }
}

#[test]
fn reading_ends_at_the_first_bad_block_and_a_store_writes_there() {
    let lines = [
        "store 5 0",
        "store 6 0",
        "store 7 0",
        "damage 512 1",
        "read",
        "list",
    ];
    let wanted = ["read ok 1", "entry 1 id 5 kind 0", "list ok 1"];
    assert_eq!(on_blocks(4, &lines)[4..], wanted);
    let mut more = lines.to_vec();
    more.extend(["store 5 3", "read", "list", "block 2"]);
    let wanted = [
        "store ok serial 2",
        "read ok 3",
        "entry 1 id 5 kind 0",
        "entry 2 id 5 kind 3",
        "entry 3 id 7 kind 0",
        "list ok 1 3",
        &block(SECOND.0, SECOND.1),
    ];
    assert_eq!(on_blocks(4, &more)[7..], wanted);
}

#[test]
fn repair_zeroes_the_first_bad_block_and_no_other_byte() {
    let before = [
        "store 5 0",
        "store 5 3",
        "damage 1024 7",
        "damage 1500 8",
        "damage 2047 9",
    ];
    let looks = ["block 1", "block 2", "block 3", "block 4"];
    let mut lines = before.to_vec();
    lines.extend(looks);
    let stood = on_blocks(4, &lines)[5..].to_vec();
    let mut lines = before.to_vec();
    lines.push("repair");
    lines.extend(looks);
    let lines = on_blocks(4, &lines);
    assert_eq!(lines[5], "repair ok block 3");
    assert_eq!(lines[6..8], stood[..2]);
    assert_eq!(lines[8], format!("block {}", "00".repeat(512)));
    assert_eq!(lines[9], stood[3]);
}

#[test]
fn a_repair_that_is_cut_zeroes_front_to_back() {
    for stores in [0, 1, 300, 511] {
        let repair = format!("repair {stores}");
        let lines = on_blocks(1, &["store 5 0", "damage 511 7", &repair, "block 1"]);
        assert_eq!(lines[2], format!("repair cut {stores}"));
        let zeros = "00".repeat(stores);
        let whole = block(FIRST.0, FIRST.1).replace("a5", "07");
        let rest = &whole["block ".len() + 2 * stores..];
        assert_eq!(lines[3], format!("block {zeros}{rest}"));
    }
}

#[test]
fn checks_go_8_3_12_16() {
    let full = [
        "store 5 0",
        "store 200 9",
        "store 5 9",
        "store 5 3",
        "store 5 3 0",
    ];
    let wanted = [
        "store refused 3",
        "store refused 12",
        "store refused 16",
        "store refused 16",
    ];
    assert_eq!(on_blocks(1, &full)[1..], wanted);
    for line in ["store 128 0", "store 255 255", "store 128 4 0"] {
        assert_eq!(last(on_blocks(1, &[line])), "store refused 3");
    }
    for line in ["store 127 4", "store 0 255", "store 0 4 0"] {
        assert_eq!(last(on_blocks(1, &[line])), "store refused 12");
    }
    let refused = on_blocks(1, &["store 128 0", "store 5 4", "block 1"]);
    assert_eq!(last(refused), format!("block {}", "00".repeat(512)));
}

#[test]
fn a_store_is_refused_with_16_exactly_when_no_block_is_bad() {
    let full = vec!["store 5 0"; 128];
    let lines = on_blocks(128, &full);
    assert_eq!(lines[127], "store ok serial 128");
    for block in [1, 64, 128] {
        let damage = format!("damage {} 0", block * 512 - 1);
        let mut lines = full.clone();
        lines.extend(["store 5 0", "repair", &damage, "store 5 0", "store 5 0"]);
        let filled = format!("store ok serial {block}");
        let wanted = [
            "store refused 16",
            "repair ok none",
            "damage ok",
            &filled,
            "store refused 16",
        ];
        assert_eq!(on_blocks(128, &lines)[128..], wanted);
    }
}

/// Plays stores of numbers and kinds, and gives the line that lists them.
fn listed(stores: &[(u8, u8)]) -> String {
    let lines = stores.iter().map(|(id, kind)| format!("store {id} {kind}"));
    let mut lines: Vec<String> = lines.collect();
    lines.push("list".to_string());
    let lines: Vec<&str> = lines.iter().map(String::as_str).collect();
    last(on_blocks(12, &lines))
}

#[test]
fn a_start_that_must_not_be_retried_stays_listed_after_the_next_one_may() {
    assert_eq!(listed(&[(5, 0), (5, 3), (5, 0), (5, 2)]), "list ok 1");
}

#[test]
fn a_start_is_listed_exactly_if_no_1_or_2_of_its_number_follows_before_its_next_start() {
    for (stores, wanted) in [
        (&[][..], "list ok"),
        (&[(5, 0)], "list ok 1"),
        (&[(5, 0), (5, 1)], "list ok"),
        (&[(5, 0), (5, 2)], "list ok"),
        (&[(5, 0), (5, 3)], "list ok 1"),
        (&[(5, 0), (5, 3), (5, 1)], "list ok"),
        (&[(5, 0), (5, 2), (5, 3)], "list ok"),
        (&[(5, 1), (5, 0)], "list ok 2"),
        (&[(5, 3), (5, 2)], "list ok"),
        (&[(5, 0), (6, 1), (6, 2)], "list ok 1"),
        (&[(5, 0), (6, 0), (5, 1)], "list ok 2"),
        (&[(5, 0), (6, 0), (6, 1), (5, 1)], "list ok"),
        (&[(5, 0), (5, 0), (5, 1)], "list ok 1"),
        (&[(5, 0), (5, 1), (5, 0), (5, 0)], "list ok 3 4"),
        (&[(0, 0), (127, 0), (5, 0), (127, 2)], "list ok 1 3"),
    ] {
        assert_eq!(listed(stores), wanted, "{stores:?}");
    }
}

#[test]
fn what_is_behind_a_bad_block_does_not_answer_a_start() {
    let lines = [
        "store 5 0",
        "store 6 0",
        "store 5 1",
        "list",
        "damage 1023 0",
        "list",
    ];
    let lines = on_blocks(3, &lines);
    assert_eq!((&lines[3][..], &lines[5][..]), ("list ok 2", "list ok 1"));
}
