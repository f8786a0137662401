//! The fates that a client's sessions have after each end of the connection, played as scripts.

mod common;

use common::{client, last, play, server};

/// The ends of a connection: an Error, a Shutdown, a violation and a lost line.
const ENDS: [&str; 4] = [
    "receive 08000000",
    "receive 02000000",
    "receive 01000000",
    "lost",
];

/// Gives the last number's line in `state` after these lines and an end.
fn session_after(lines: &[&str], end: &str) -> String {
    last(client(4, &[lines, &[end, "state"]].concat()))
}

/// Asks that number 5 prints these sides and then the fate of each end, in the order of `ENDS`.
fn ask(lines: &[&str], sides: &str, fates: [&str; 4]) {
    for (end, fate) in ENDS.iter().zip(fates) {
        let wanted = format!("session 5 {sides} outcome {fate}");
        let line = session_after(lines, end);
        assert!(line.starts_with(&wanted), "{end}: {line}");
    }
}

#[test]
fn openings_may_be_retried() {
    let retry = ["retry"; 4];
    ask(&["open 5"], "opening none", retry);
    ask(&["open 5", "put 5 6162", "finish 5"], "opening none", retry);
    let answered = ["open 5", "finish 5", "turn", "receive 8c050000", "open 5"];
    ask(&answered, "opening none", retry);
}

#[test]
fn sent_sessions_without_a_whole_answer() {
    let fates = ["no-retry", "retry", "no-retry", "no-retry"];
    ask(&["open 5", "turn"], "open open", fates);
    ask(
        &["open 5", "turn", "receive 8005000161"],
        "open open",
        fates,
    );
    ask(&["open 5", "finish 5", "turn"], "finished open", fates);
}

#[test]
fn sent_sessions_with_a_whole_answer() {
    let fates = ["complete", "retry", "no-retry", "no-retry"];
    for answer in ["receive 84050000", "receive 8405000161", "receive 86050000"] {
        ask(&["open 5", "turn", answer], "open finished", fates);
        ask(
            &["open 5", "finish 5", "turn", answer],
            "finished finished",
            fates,
        );
        ask(
            &["open 5", "turn", answer, "finish 5", "turn"],
            "finished finished",
            fates,
        );
    }
}

#[test]
fn sessions_that_are_settled() {
    let sent = ["open 5", "finish 5", "turn"];
    for (answer, fate) in [
        ("receive 8c050000", "complete"),
        ("receive 20050000", "retry"),
        ("receive 22050000", "no-retry"),
    ] {
        let lines = [&sent[..], &[answer]].concat();
        ask(&lines, "finished ended", [fate; 4]);
    }
    let aborted = ["open 5", "turn", "receive 84050000", "abort 5 whole"];
    ask(&aborted, "ended finished", ["no-retry"; 4]);
    let late = ["open 5", "turn", "abort 5 whole", "receive 84050000"];
    ask(&late, "ended finished", ["no-retry"; 4]);
    ask(&["open 5", "abort 5 whole"], "idle none", ["retry"; 4]);
}

#[test]
fn a_number_opened_again_has_a_new_fate() {
    let first = ["open 5", "finish 5", "turn", "receive 8c050000"];
    let fates = ["no-retry", "retry", "no-retry", "no-retry"];
    let again = [&first[..], &["open 5", "turn"]].concat();
    ask(&again, "open open", fates);
    let fates = ["complete", "retry", "no-retry", "no-retry"];
    let answered = [&again[..], &["receive 84050000"]].concat();
    ask(&answered, "open finished", fates);
}

#[test]
fn an_error_keeps_what_waits_and_writes_nothing() {
    let lines = client(
        4,
        &[
            "open 5",
            "turn",
            "put 5 616263",
            "finish 5",
            "receive 84050000",
            "receive 0800000161",
            "state",
            "turn",
        ],
    );
    assert_eq!(lines[5], "receive ok error length 1 used 5");
    assert_eq!(lines[6], "connection client up 4 over last 5 ping none");
    assert_eq!(
        lines[7],
        "session 5 open finished outcome complete out 1024 waiting 3 finish"
    );
    assert_eq!(lines[8], "turn refused 2");
}

#[test]
fn an_error_that_is_cut_changes_no_fate() {
    let lines = ["open 5", "turn", "receive 84050000", "receive 0800000261"];
    let lines = client(
        4,
        &[&lines[..], &["state", "receive 080000026162", "state"]].concat(),
    );
    assert_eq!(lines[3], "receive refused 10");
    assert!(lines[5].starts_with("session 5 open finished outcome running "));
    assert!(last(lines).starts_with("session 5 open finished outcome complete "));
}

#[test]
fn an_answer_behind_an_error_is_not_taken() {
    let lines = ["open 5", "turn"];
    let line = session_after(&lines, "receive 0800000084050000");
    assert!(line.starts_with("session 5 open open outcome no-retry "));
    let line = session_after(
        &[&lines[..], &["receive 8405000008000000"]].concat(),
        ENDS[0],
    );
    assert!(line.starts_with("session 5 open finished outcome complete "));
}

#[test]
fn servers_have_no_fates() {
    for end in [ENDS[0], ENDS[2], ENDS[3], "shutdown"] {
        let line = last(server(4, &["receive 94050000", end, "state"]));
        assert!(line.starts_with("session 5 open finished outcome none "));
    }
}

#[test]
fn an_error_before_the_headers_is_a_bad_header() {
    let lines = play(&["client 4", "start", "receive 0800000000000000", "state"]);
    assert_eq!(lines[1], "receive refused 22 at 0 wrote 08000000");
    assert_eq!(
        lines[2],
        "connection client started over last 127 ping none"
    );
}

#[test]
fn fates_at_the_end() {
    let run = ["open 1", "turn", "open 2", "finish 1", "turn", "open 3"];
    for (end, one, three) in [
        ("lost", "no-retry", "retry"),
        ("receive 08000000", "no-retry", "retry"),
        ("receive 02000000", "retry", "retry"),
        ("receive 01000000", "no-retry", "retry"),
    ] {
        let lines = client(4, &[&run[..], &[end, "state", "turn"]].concat());
        assert!(lines[7].starts_with("connection client up 4 over last 2 "));
        assert!(
            lines[8].contains(&format!("outcome {one} ")),
            "{}",
            lines[8]
        );
        assert_eq!(
            lines[10],
            format!("session 3 opening none outcome {three} waiting 0")
        );
        assert_eq!(lines[11], "turn refused 2");
    }
}
