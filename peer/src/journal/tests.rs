use super::make::{BAD_FIRST_LINES, BAD_LINES, EDGE_LINES};
use super::script::{read_call, read_first};
use super::*;

#[test]
fn bad_first_lines() {
    for line in BAD_FIRST_LINES {
        let text = String::from_utf8_lossy(line);
        assert_eq!(read_first(line), None, "{text:?}");
    }
}

#[test]
fn bad_calls() {
    for line in BAD_LINES {
        let text = String::from_utf8_lossy(line);
        assert_eq!(read_call(line, 70_000), None, "{text:?}");
    }
}

#[test]
fn calls_read_back() {
    for line in EDGE_LINES {
        let mut back = Vec::new();
        read_call(line, 1).unwrap().write(&mut back);
        assert_eq!(back, line);
    }
}

/// A block is good exactly if it is the one that the journal would store for its number and kind.
#[test]
fn the_rules_are_those_of_the_form() {
    for place in [1, 2, 128] {
        for (serial, id, kind) in [(place, 0, 0), (place, 127, 3), (place, 5, 1)] {
            let block = Entry { serial, id, kind }.block();
            assert!(!is_bad(&block, place));
            assert!(is_bad(&block, place + 1));
            for at in 0..BLOCK {
                let mut harmed = block;
                harmed[at] ^= 0x10;
                assert!(is_bad(&harmed, place), "byte {at}");
            }
        }
    }
}

/// A check that fits does not make up for a number, kind or byte that no entry has.
#[test]
fn each_rule_stands_alone() {
    let entry = |serial, id, kind| Entry { serial, id, kind }.block();
    assert!(is_bad(&entry(1, 128, 0), 1));
    assert!(is_bad(&entry(1, 5, 4), 1));
    assert!(is_bad(&entry(0, 5, 0), 1));
    assert!(is_bad(&entry(0x0100_0000, 5, 0), 1));
    for at in ZEROS_AT..CHECK_AT {
        let mut block = entry(1, 5, 0);
        block[at] = 1;
        put_check(&mut block);
        assert!(is_bad(&block, 1), "byte {at}");
    }
}
