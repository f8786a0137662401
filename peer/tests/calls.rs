//! What the calls ask of their rooms, rations and order, and lines that are no call, played as scripts.

mod common;

use common::{client, last, play, server};
use peer::play::play_bytes;

#[test]
fn rooms_and_queues() {
    let lines = play(&[
        "client 4 queue 65535",
        "start 7",
        "start 8",
        "receive 4a6d757801000400 11",
        "receive 4a6d757801000400 12",
        "open 5",
        "put 5 00",
        "put 200 00",
        "turn 515",
        "turn",
        "queue 126",
        "queue 127",
        "queue 128",
    ]);
    let wanted = [
        "start refused 8",
        "start ok wrote 4a6d757801000400",
        "receive refused 8",
        "receive ok header 4 used 8",
        "open ok",
        "put refused 8",
        "put refused 8",
        "turn refused 8",
        "turn refused 8",
    ];
    assert_eq!(lines[..9], wanted);
    assert_eq!(lines[9], format!("queue {}", "dd".repeat(512)));
    assert_eq!(lines[10..], ["queue none", "queue none"]);
}

/// Plays a client that puts more than its ration of 256, asks for the end, and gets an increment.
fn two_puts_of_200() -> Vec<String> {
    let first = format!("put 5 {}", "61".repeat(200));
    let second = format!("put 5 {}", "62".repeat(200));
    let begin = ["open 5", &first, "turn", &second, "finish 5"];
    let cut = ["turn", "turn", "state", "queue 5"];
    let rest = ["receive 10050090", "turn", "queue 5", "state"];
    client(1, &[&begin[..], &cut, &rest].concat())
}

#[test]
fn the_ration_cuts_a_turn() {
    let lines = two_puts_of_200();
    assert_eq!(
        lines[5],
        format!("turn ok id 5 wrote 80050038{}", "62".repeat(56))
    );
    assert_eq!(lines[6], "turn refused 9");
    assert_eq!(
        lines[8],
        "session 5 open open outcome running out 0 in 1024 waiting 144 finish"
    );
    let slot = "62".repeat(144) + &"00".repeat(368);
    assert_eq!(lines[9], format!("queue {slot}"));
}

#[test]
fn an_increment_lets_the_rest_go() {
    let lines = two_puts_of_200();
    assert_eq!(
        lines[11],
        format!("turn ok id 5 wrote 84050090{}", "62".repeat(144))
    );
    assert_eq!(lines[12], format!("queue {}", "00".repeat(512)));
    assert_eq!(
        last(lines),
        "session 5 finished open outcome running in 1024"
    );
}

#[test]
fn the_order_of_checks() {
    assert_eq!(play(&["server 4", "open 200"])[0], "open refused 1");
    assert_eq!(play(&["server 4", "start 7"])[0], "start refused 8");
    assert_eq!(play(&["server 4", "start 8"])[0], "start refused 4");
    assert_eq!(play(&["client 4", "receive - 0"])[0], "receive refused 1");
    assert_eq!(play(&["server 4", "put 200 00"])[0], "put refused 1");
    let one = |line: &str| last(client(4, &[line]));
    assert_eq!(one("start"), "start refused 5");
    assert_eq!(one("shutdown 3"), "shutdown refused 8");
    assert_eq!(one("shutdown"), "shutdown refused 4");
    assert_eq!(one("close 200 3"), "close refused 8");
    assert_eq!(one("close 200"), "close refused 3");
    assert_eq!(one("close 5"), "close refused 4");
    assert_eq!(one("abort 128 partial"), "abort refused 3");
    assert_eq!(one("abort 5 partial"), "abort refused 4");
    assert_eq!(one("grant 5 0"), "grant refused 5");
    let granted = |line: &str| last(client(4, &["open 5", "turn", line]));
    assert_eq!(granted("grant 5 0"), "grant refused 12");
    assert_eq!(granted("grant 5 65536"), "grant refused 12");
    assert_eq!(granted("grant 5 65535"), "grant ok wrote 1005ffff");
}

#[test]
fn grants_to_endless_rations() {
    let lines = server(0, &["receive 90000000", "grant 0 1", "grant 0 0"]);
    assert_eq!(lines[1], "grant refused 7");
    assert_eq!(lines[2], "grant refused 12");
    let lines = client(0, &["open 5", "turn", "receive 1e05ffff", "state"]);
    assert_eq!(
        lines[2],
        "receive ok increment id 5 shift 7 increment 65535 used 4"
    );
    assert!(lines[4].contains("out endless "));
}

#[test]
fn script_errors() {
    let error = |script: &[u8]| String::from_utf8(play_bytes(script, None)).unwrap();
    assert_eq!(error(b""), "");
    assert_eq!(error(b"\n# a\0\n\n"), "");
    assert_eq!(error(b"client 4"), "");
    assert_eq!(error(b"start\n"), "script error at line 1\n");
    assert_eq!(error(b"#\n\nclient 4 \n"), "script error at line 3\n");
    assert_eq!(
        error(b"client 4\nstart\n\nstat\nstate\n"),
        "start ok wrote 4a6d757801000400\nscript error at line 4\n"
    );
    assert_eq!(error(b"client 4\r\nstart"), "script error at line 1\n");
    assert_eq!(
        error(b"client 4\n#\xff\nopen 1\0"),
        "script error at line 3\n"
    );
    let mut long = b"client 4\n".to_vec();
    long.extend(vec![b'a'; 1 << 20]);
    assert_eq!(error(&long), "script error at line 2\n");
}
