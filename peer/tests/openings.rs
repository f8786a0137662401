//! First messages that a starting ration of 256 cuts, and the rest of their bytes, played as scripts.

mod common;

use common::{client, last, server};

/// Gives the lines that open number 5 with that many bytes, the first 256 of them alike.
fn opening(count: usize) -> Vec<String> {
    let (first, rest) = (count.min(256), count.saturating_sub(256));
    let bytes = "61".repeat(first) + &"62".repeat(rest);
    vec!["open 5".to_string(), format!("put 5 {bytes}")]
}

/// Plays an opening of that many bytes and more lines at a client whose server has header number 1.
fn after_opening(count: usize, more: &[&str]) -> Vec<String> {
    let begin = opening(count);
    let mut lines: Vec<&str> = begin.iter().map(String::as_str).collect();
    lines.extend(more);
    client(1, &lines)[2..].to_vec()
}

/// Gives the line of a turn of number 5 by its first byte and the bytes that went.
fn wrote(first: &str, hex: &str, count: usize) -> String {
    let bytes = hex.repeat(count);
    format!("turn ok id 5 wrote {first}05{count:04x}{bytes}")
}

#[test]
fn a_starting_ration_of_256_cuts_a_first_message() {
    let lines = after_opening(512, &["turn", "turn", "state", "queue 5"]);
    assert_eq!(lines[0], wrote("90", "61", 256));
    assert_eq!(lines[1], "turn refused 9");
    assert_eq!(
        lines[3],
        "session 5 open open outcome running out 0 in 1024 waiting 256"
    );
    let slot = "62".repeat(256) + &"00".repeat(256);
    assert_eq!(lines[4], format!("queue {slot}"));
}

#[test]
fn the_rest_goes_after_an_increment() {
    let more = ["turn", "turn", "receive 10050100", "turn", "turn", "state"];
    let lines = after_opening(512, &more);
    assert_eq!(lines[1], "turn refused 9");
    assert_eq!(
        lines[2],
        "receive ok increment id 5 shift 0 increment 256 used 4"
    );
    assert_eq!(lines[3], wrote("80", "62", 256));
    assert_eq!(lines[4], "turn refused 9");
    assert_eq!(
        last(lines),
        "session 5 open open outcome running out 0 in 1024 waiting 0"
    );
}

#[test]
fn the_eof_goes_with_the_last_of_the_rest() {
    for (finish, second) in [("finish 5", "queue 5"), ("queue 5", "finish 5")] {
        let more = [finish, "turn", second, "turn", "receive 10050100", "turn"];
        let lines = after_opening(512, &[&more[..], &["state"]].concat());
        assert_eq!(lines[1], wrote("90", "61", 256));
        assert_eq!(lines[3], "turn refused 9");
        assert_eq!(lines[5], wrote("84", "62", 256));
        assert_eq!(
            last(lines),
            "session 5 finished open outcome running in 1024"
        );
    }
}

#[test]
fn the_eof_is_held_back_as_long_as_a_byte_remains() {
    let more = ["finish 5", "turn", "state", "put 5 63", "finish 5"];
    let rest = [
        "receive 100500ff",
        "turn",
        "turn",
        "receive 10050001",
        "turn",
    ];
    let lines = after_opening(512, &[more, rest].concat());
    assert_eq!(lines[1], wrote("90", "61", 256));
    assert_eq!(
        lines[3],
        "session 5 open open outcome running out 0 in 1024 waiting 256 finish"
    );
    assert_eq!(lines[4..6], ["put refused 5", "finish refused 5"]);
    assert_eq!(lines[7], wrote("80", "62", 255));
    assert_eq!(lines[8], "turn refused 9");
    assert_eq!(last(lines), wrote("84", "62", 1));
}

#[test]
fn openings_around_the_starting_ration() {
    let more = ["finish 5", "turn", "turn", "receive 10050001", "turn"];
    for count in [255, 256] {
        let lines = after_opening(count, &more);
        assert_eq!(lines[1], wrote("94", "61", count));
        assert_eq!(lines[2], "turn refused 9");
        assert!(lines[3].contains(" late "));
        assert_eq!(lines[4], "turn refused 9");
    }
    let lines = after_opening(257, &more);
    assert_eq!(lines[1], wrote("90", "61", 256));
    assert_eq!(lines[2], "turn refused 9");
    assert_eq!(lines[4], wrote("84", "62", 1));
}

#[test]
fn a_slot_can_be_filled_again_while_its_rest_waits() {
    let (fits, more) = ("63".repeat(256), "63".repeat(257));
    let (fits, more) = (format!("put 5 {fits}"), format!("put 5 {more}"));
    let increment = "receive 10050200";
    let lines = after_opening(512, &["turn", &more, &fits, "turn", increment, "turn"]);
    assert_eq!(lines[1..4], ["put refused 6", "put ok", "turn refused 9"]);
    let bytes = "62".repeat(256) + &"63".repeat(256);
    assert_eq!(last(lines), format!("turn ok id 5 wrote 80050200{bytes}"));
}

#[test]
fn a_session_whose_rest_waits_was_sent() {
    for (end, answer, outcome) in [
        ("abort 5 whole", "abort ok wrote 20050000", "no-retry"),
        ("lost", "lost ok", "no-retry"),
        (
            "receive 08000000",
            "receive ok error length 0 used 4",
            "no-retry",
        ),
        (
            "receive 02000000",
            "receive ok shutdown length 0 used 4",
            "retry",
        ),
        (
            "receive 8c050000",
            "receive ok data id 5 close eof length 0 used 4 wrote 20050000",
            "complete",
        ),
    ] {
        let lines = after_opening(512, &["turn", end, "state"]);
        assert_eq!(lines[1], answer);
        let outcome = format!(" outcome {outcome}");
        assert!(lines[3].contains(&outcome), "{end}: {}", lines[3]);
    }
}

#[test]
fn a_number_that_needs_an_increment_is_passed_over() {
    let six = format!("put 6 {}", "63".repeat(512));
    let turns = ["turn", "turn", "turn", "receive 10060001", "turn"];
    let more = [
        "receive 10050001",
        "receive 10060001",
        "turn",
        "turn",
        "turn",
    ];
    let lines = after_opening(512, &[&["open 6", &six], &turns[..], &more].concat());
    let begins = |place: usize, text: &str| assert!(lines[place].starts_with(text), "{place}");
    begins(2, "turn ok id 5 wrote 90050100");
    begins(3, "turn ok id 6 wrote 90060100");
    begins(4, "turn refused 9");
    begins(6, "turn ok id 6 wrote 80060001");
    begins(9, "turn ok id 5 wrote 80050001");
    begins(10, "turn ok id 6 wrote 80060001");
    begins(11, "turn refused 9");
}

/// Gives the line by which the other end receives what a line says was written.
fn received(line: &str) -> String {
    let bytes = line.split(" wrote ").nth(1).unwrap();
    format!("receive {bytes}")
}

#[test]
fn a_server_of_header_number_1_takes_both_parts() {
    let more = ["finish 5", "turn", "receive 10050100", "turn"];
    let lines = after_opening(512, &more);
    let (first, rest) = (received(&lines[1]), received(&lines[3]));
    let answers = server(1, &[&first, "state", "grant 5 256", &rest, "state"]);
    assert_eq!(answers[0], "receive ok data id 5 open length 256 used 260");
    assert_eq!(
        answers[2],
        "session 5 open open outcome none out 1024 in 0 waiting 0"
    );
    assert_eq!(received(&answers[3]), more[2]);
    assert_eq!(answers[4], "receive ok data id 5 eof length 256 used 260");
    assert_eq!(
        last(server(1, &[&first, &rest])),
        "receive refused 26 at 2 wrote 08000000"
    );
}
