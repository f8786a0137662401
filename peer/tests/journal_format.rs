//! The format of the journal's scripts, line by line.

#[path = "common/journal.rs"]
mod common;

use common::{last, on_blocks, play};
use peer::journal::play::play_bytes;

/// Gives the `block` line of a block whose serial, number, kind and check are given in hex.
fn block(start: &str, check: &str) -> String {
    format!("block {start}{}{check}a5", "00".repeat(501))
}

/// The block of serial 1, number 5, kind 0.
const FIRST: (&str, &str) = ("000000010500", "346c5e94");

/// Calls on a region of two blocks, one behind the other, with the lines that each prints.
const CALLS: [(&str, &[&str]); 16] = [
    ("store 5 0", &["store ok serial 1"]),
    ("store 5 3 7", &["store cut 7"]),
    ("read", &["read ok 1", "entry 1 id 5 kind 0"]),
    ("list", &["list ok 1"]),
    ("repair 8", &["repair cut 8"]),
    ("repair", &["repair ok block 2"]),
    ("damage 0 0", &["damage ok"]),
    ("block 3", &["block none"]),
    ("store 5 1", &["store ok serial 2"]),
    ("repair", &["repair ok none"]),
    ("repair 0", &["repair ok none"]),
    (
        "read",
        &["read ok 2", "entry 1 id 5 kind 0", "entry 2 id 5 kind 1"],
    ),
    ("list", &["list ok"]),
    ("store 5 0", &["store refused 16"]),
    ("store 128 0", &["store refused 3"]),
    ("store 5 4", &["store refused 12"]),
];

#[test]
fn each_line_of_the_format() {
    let lines = CALLS.map(|(line, _)| line);
    let wanted: Vec<&str> = CALLS
        .iter()
        .flat_map(|(_, printed)| *printed)
        .copied()
        .collect();
    assert_eq!(on_blocks(2, &lines), wanted);
}

#[test]
fn a_block_is_printed_in_hex() {
    let lines = on_blocks(1, &["store 5 0", "block 1", "damage 0 161", "block 1"]);
    assert_eq!(lines[1], block(FIRST.0, FIRST.1));
    assert_eq!(lines[3], block("a10000010500", FIRST.1));
}

#[test]
fn bytes_are_stored_front_to_back() {
    let whole = block(FIRST.0, FIRST.1);
    let whole = whole.strip_prefix("block ").unwrap();
    for stores in 0..512 {
        let store = format!("store 5 0 {stores}");
        let lines = on_blocks(1, &[&store, "block 1"]);
        assert_eq!(lines[0], format!("store cut {stores}"));
        let zeros = "00".repeat(512 - stores);
        assert_eq!(lines[1], format!("block {}{zeros}", &whole[..2 * stores]));
    }
    for stores in [512, 513, 999] {
        let store = format!("store 5 0 {stores}");
        assert_eq!(last(on_blocks(1, &[&store])), "store ok serial 1");
    }
}

#[test]
fn blocks_are_printed_where_the_region_holds_them_whole() {
    let zeros = format!("block {}", "00".repeat(512));
    for (length, number, there) in [
        (0, 1, false),
        (511, 1, false),
        (512, 0, false),
        (512, 1, true),
        (512, 2, false),
        (513, 1, true),
        (513, 2, false),
        (66_048, 129, true),
        (70_000, 136, true),
        (70_000, 137, false),
        (70_000, 999_999_999, false),
    ] {
        let lines = play(&[&format!("region {length}"), &format!("block {number}")]);
        let wanted = if there { zeros.as_str() } else { "block none" };
        assert_eq!(last(lines), wanted, "{length} {number}");
    }
}

#[test]
fn damage_sets_one_byte_of_the_region() {
    let lines = play(&[
        "region 513",
        "damage 0 255",
        "damage 511 1",
        "damage 512 9",
        "block 1",
    ]);
    assert_eq!(lines[..3], ["damage ok"; 3]);
    assert_eq!(lines[3], format!("block ff{}01", "00".repeat(510)));
    for (length, place) in [(0, 0), (1, 1), (512, 512), (70_000, 70_000)] {
        let lines = play(&[&format!("region {length}"), &format!("damage {place} 0")]);
        assert_eq!(lines, ["script error at line 2"]);
    }
}

#[test]
fn script_errors_end_the_run() {
    for first in [
        "read",
        "region",
        "region 70001",
        "region 0512",
        "region 512 1",
        "client 4",
    ] {
        assert_eq!(
            play(&["#", "", first, "read"]),
            ["script error at line 3"],
            "{first}"
        );
    }
    for line in [
        "region 512",
        "store 256 0",
        "store 5 256",
        "store 5 0 1000",
        "store 05 0",
        "store 5",
        "store 5 0 1 1",
        "store  5 0",
        "repair 1000",
        "read 1",
        "list ",
        "damage 0 256",
        "block",
        "block 1000000000",
        "dance",
    ] {
        let lines = play(&["region 512", "read", line, "read"]);
        assert_eq!(lines, ["read ok 0", "script error at line 3"], "{line}");
    }
}

#[test]
fn skipped_lines_print_nothing() {
    assert_eq!(play_bytes(b"", None), b"");
    assert_eq!(play_bytes(b"\n# \xff\0\n\n", None), b"");
    assert_eq!(play_bytes(b"#\nregion 0\n", None), b"");
    assert_eq!(play_bytes(b"\nregion 512\n#\n\nread", None), b"read ok 0\n");
}
