//! The sizes of slots, rooms and queues, and the round of turns over full slots, played as scripts.

mod common;

use common::{client, last, play, server};

/// Gives the line that puts that many bytes to number 5.
fn put(count: usize) -> String {
    match count {
        0 => "put 5 -".to_string(),
        _ => format!("put 5 {}", "61".repeat(count)),
    }
}

#[test]
fn a_slot_holds_512_bytes() {
    for (first, too_many) in [(0, 513), (0, 1024), (1, 512), (256, 257), (512, 1)] {
        let puts = [first, too_many, 512 - first, 1, 0].map(put);
        let mut lines = vec!["open 5"];
        lines.extend(puts.iter().map(String::as_str));
        lines.push("state");
        let lines = client(4, &lines);
        let refused = "put refused 6";
        let wanted = ["put ok", refused, "put ok", refused, "put ok"];
        assert_eq!(lines[1..6], wanted, "{first} and {too_many}");
        assert!(last(lines).ends_with(" waiting 512"));
    }
}

#[test]
fn a_refused_put_changes_nothing() {
    let (half, more) = (put(256), put(257));
    let lines = client(4, &["open 5", &half, &more, "queue 5", "state"]);
    assert_eq!(lines[2], "put refused 6");
    let slot = "61".repeat(256) + &"00".repeat(256);
    assert_eq!(lines[3], format!("queue {slot}"));
    assert!(last(lines).ends_with(" waiting 256"));
}

#[test]
fn a_server_fills_and_sends_a_slot() {
    let (full, more) = (put(512), put(513));
    let lines = [
        "receive 90050000",
        &more,
        &full,
        "put 5 62",
        "turn 516",
        "queue 5",
    ];
    let lines = server(4, &lines);
    let wanted = ["put refused 6", "put ok", "put refused 6"];
    assert_eq!(lines[1..4], wanted);
    let bytes = "61".repeat(512);
    assert_eq!(lines[4], format!("turn ok id 5 wrote 80050200{bytes}"));
    assert_eq!(lines[5], format!("queue {}", "00".repeat(512)));
}

#[test]
fn a_full_slot_goes_at_once_where_the_ration_allows() {
    let full = put(512);
    for (far, left) in [(0, "endless"), (2, "0"), (3, "256"), (4, "512")] {
        let lines = client(far, &["open 5", &full, "turn", "state"]);
        let bytes = "61".repeat(512);
        assert_eq!(lines[2], format!("turn ok id 5 wrote 90050200{bytes}"));
        let wanted = format!("session 5 open open outcome running out {left} in 1024 waiting 0");
        assert_eq!(last(lines), wanted);
        let lines = client(far, &["open 5", &full, "finish 5", "turn"]);
        assert_eq!(last(lines), format!("turn ok id 5 wrote 94050200{bytes}"));
    }
}

#[test]
fn turn_asks_for_a_room_of_516() {
    for room in [0, 4, 259, 260, 515] {
        let turn = format!("turn {room}");
        let lines = client(4, &[&turn, "open 5", &turn, "state"]);
        assert_eq!(lines[0], "turn refused 8", "nothing is ready, room {room}");
        assert_eq!(lines[2], "turn refused 8", "room {room}");
        assert!(last(lines).starts_with("session 5 opening none "));
    }
    for room in [516, 517] {
        let turn = format!("turn {room}");
        let lines = client(4, &[&turn, "open 5", &turn]);
        assert_eq!(lines[0], "turn refused 9");
        assert_eq!(lines[2], "turn ok id 5 wrote 90050000");
    }
}

#[test]
fn only_a_queue_of_65536_bytes_is_right() {
    let run = |length: u32| {
        let first = format!("client 4 queue {length}");
        let header = "receive 4a6d757801000400";
        let calls = ["open 5", "put 5 -", "put 5 61", "turn", "abort 5 whole"];
        play(&[&[first.as_str(), "start", header], &calls[..]].concat())[3..].to_vec()
    };
    for length in [0, 512, 32_767, 32_768, 32_769, 65_535, 65_537, 70_000] {
        let wanted = [
            "put refused 8",
            "put refused 8",
            "turn refused 8",
            "abort ok",
        ];
        assert_eq!(run(length), wanted, "length {length}");
    }
    assert_eq!(run(65_536)[..2], ["put ok", "put ok"]);
    assert_eq!(run(65_536)[2], "turn ok id 5 wrote 9005000161");
}

#[test]
fn slots_lie_512_bytes_apart() {
    let full = put(512);
    let lines = [
        "open 5",
        &full,
        "queue 4",
        "queue 5",
        "queue 6",
        "queue 127",
    ];
    let lines = client(4, &lines);
    let untouched = format!("queue {}", "dd".repeat(512));
    assert_eq!(lines[2], untouched);
    assert_eq!(lines[3], format!("queue {}", "61".repeat(512)));
    assert_eq!(lines[4..], [untouched.as_str(); 2]);
    for (length, slots) in [(511, 0), (512, 1), (1023, 1), (1024, 2)] {
        let first = format!("server 4 queue {length}");
        let lines = play(&[&first, "queue 0", "queue 1", "queue 2"]);
        let there = lines.iter().take_while(|line| **line == untouched).count();
        assert_eq!(there, slots, "length {length}");
        assert!(lines[slots..].iter().all(|line| line == "queue none"));
    }
}

/// Gives the numbers that the turns among these lines served.
fn served(lines: &[String]) -> Vec<u8> {
    let numbers = lines.iter().filter_map(|line| {
        let rest = line.strip_prefix("turn ok id ")?;
        rest.split(' ').next()?.parse().ok()
    });
    numbers.collect()
}

/// A ready number waits for at most one Data message of each of the others.
#[test]
fn full_slots_do_not_change_the_round() {
    let all: Vec<u8> = (0..128).collect();
    let bytes = "61".repeat(512);
    for far in [0, 1, 2] {
        let mut lines = Vec::new();
        for id in &all {
            lines.push(format!("open {id}"));
            lines.push(format!("put {id} {bytes}"));
        }
        for _ in &all {
            lines.push("turn".to_string());
            lines.push("put 0 62".to_string());
            lines.push("receive 10000001".to_string());
        }
        let lines: Vec<&str> = lines.iter().map(String::as_str).collect();
        assert_eq!(served(&client(far, &lines)), all, "header number {far}");
    }
}
