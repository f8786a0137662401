//! Power cuts at every byte store: what is read is exactly the entries that were stored whole.

#[path = "common/journal.rs"]
mod common;

use common::{last, on_blocks};
use peer::journal::cuts::{History, HISTORIES, LARGEST_CUT};
use peer::journal::play::play_bytes;
use peer::journal::{Journal, Written};
use peer::rng::Rng;

/// Gives the entries that a read prints first among these lines.
fn first_read(lines: &[String]) -> Vec<String> {
    let read = lines.iter().position(|line| line.starts_with("read"));
    let entries = lines[read.unwrap() + 1..].iter();
    let entries = entries.take_while(|line| line.starts_with("entry"));
    entries.cloned().collect()
}

/// Gives the entries of the stores that a script makes whole, cut after nothing else.
fn whole(stores: &[(u8, u8)]) -> Vec<String> {
    let entry =
        |(serial, (id, kind)): (u32, &(u8, u8))| format!("entry {serial} id {id} kind {kind}");
    (1..).zip(stores).map(entry).collect()
}

#[test]
fn a_store_is_read_only_when_its_last_byte_is_stored() {
    let stores = [(5, 0), (5, 2), (127, 0)];
    for cut in 0..=512 {
        let cut_store = format!("store 127 0 {cut}");
        let lines = on_blocks(4, &["store 5 0", "store 5 2", &cut_store, "read", "list"]);
        let count = if cut < 512 { 2 } else { 3 };
        assert_eq!(first_read(&lines), whole(&stores[..count]), "{cut}");
        let list = if cut < 512 { "list ok" } else { "list ok 3" };
        assert_eq!(last(lines), list);
    }
}

#[test]
fn a_repair_that_is_cut_changes_no_entry() {
    for torn in [0, 1, 6, 300, 507, 510, 511] {
        for cut in 0..=512 {
            let store = format!("store 6 1 {torn}");
            let repair = format!("repair {cut}");
            let lines = on_blocks(3, &["store 5 0", &store, &repair, "read"]);
            assert_eq!(first_read(&lines), whole(&[(5, 0)]), "{torn} {cut}");
        }
    }
}

#[test]
fn two_cuts_in_one_block_make_up_no_entry() {
    for (id, kind) in [(6, 1), (7, 1), (6, 2)] {
        for cut in (0..=511).rev() {
            let (first, second) = ("store 6 1 511", format!("store {id} {kind} {cut}"));
            let lines = on_blocks(
                2,
                &["store 5 0", first, &second, "read", "store 5 1", "read"],
            );
            assert_eq!(first_read(&lines), whole(&[(5, 0)]), "{id} {kind} {cut}");
            assert_eq!(lines[5], "store ok serial 2");
        }
    }
}

/// Gives the entries of a history that the journal alone wrote, whole up to the cut.
fn entries_of(history: &History, cut: u32) -> Vec<String> {
    let calls = history.before.iter().map(|line| line.to_string());
    let calls = calls.chain([format!("{} {cut}", history.call)]);
    let mut stores = Vec::new();
    for call in calls {
        let words: Vec<&str> = call.split(' ').collect();
        let whole = words.get(3).is_none_or(|made| *made == "512");
        if words[0] == "store" && whole {
            stores.push((words[1].parse().unwrap(), words[2].parse().unwrap()));
        }
    }
    whole(&stores)
}

#[test]
fn each_history_at_each_cut_keeps_the_claim_on_power() {
    for history in HISTORIES
        .iter()
        .filter(|history| history.written_by_journal)
    {
        for cut in 0..=LARGEST_CUT {
            let text = play_bytes(&history.script(cut), None);
            let lines: Vec<String> = String::from_utf8(text)
                .unwrap()
                .lines()
                .map(str::to_string)
                .collect();
            assert_eq!(
                first_read(&lines),
                entries_of(history, cut),
                "{} {cut}",
                history.name
            );
        }
    }
}

/// Whatever stores and repairs are cut, the journal's own region gives the whole entries and no others.
#[test]
fn random_histories_keep_the_claim_on_power() {
    let mut rng = Rng::new(12);
    for _ in 0..400 {
        let mut journal = Journal::new(512 * rng.between(1, 6) as usize);
        let mut wanted = Vec::new();
        for _ in 0..rng.between(1, 25) {
            let stores = Some(rng.one_of(&[0, 4, 5, 6, 300, 507, 508, 509, 510, 511, 512]));
            let (id, kind) = (rng.below(3) as u8, rng.below(4) as u8);
            if rng.percent(30) {
                journal.repair(stores).unwrap();
            } else if let Ok(Written::Whole(serial)) = journal.store(id, kind, stores) {
                wanted.push((serial, id, kind));
            }
            let read = journal.read().unwrap();
            let read: Vec<_> = read.iter().map(|e| (e.serial, e.id, e.kind)).collect();
            assert_eq!(read, wanted);
        }
    }
}

/// Outside the claim: where damage left the mark, a store can be whole before its last byte.
#[test]
fn a_store_over_a_damaged_block_with_its_mark() {
    for (cut, count) in [(0, 1), (5, 1), (6, 2), (511, 2), (512, 2)] {
        let store = format!("store 5 3 {cut}");
        let lines = ["store 5 0", "store 5 3", "damage 517 2", &store, "read"];
        let lines = on_blocks(3, &lines);
        let stores = [(5, 0), (5, 3)];
        assert_eq!(first_read(&lines), whole(&stores[..count]), "{cut}");
    }
}
