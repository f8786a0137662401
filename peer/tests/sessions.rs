//! What a session takes and answers at each pair of sides, played as scripts.

mod common;

use common::{client, last, server};

#[test]
fn late_data_is_no_violation() {
    let lines = server(
        1,
        &[
            "receive 90050000",
            "abort 5 whole",
            "receive 80050002aabb",
            "receive 84050001cc",
            "receive 10050001",
            "receive 40050000",
            "receive 80050000",
        ],
    );
    assert_eq!(lines[1], "abort ok wrote 20050000");
    assert_eq!(lines[2], "receive ok data id 5 length 2 late used 6");
    assert_eq!(lines[3], "receive ok data id 5 eof length 1 late used 5");
    assert_eq!(
        lines[4],
        "receive ok increment id 5 shift 0 increment 1 late used 4"
    );
    assert_eq!(lines[5], "receive ok ack id 5 used 4");
    assert_eq!(lines[6], "receive refused 25 at 1 wrote 08000000");
}

#[test]
fn late_data_is_not_counted() {
    let long = format!("receive 80050200{}", "00".repeat(512));
    let lines = server(1, &["receive 90050000", "abort 5 partial", &long]);
    assert_eq!(lines[1], "abort ok wrote 22050000");
    assert_eq!(lines[2], "receive ok data id 5 length 512 late used 516");
}

#[test]
fn late_close_is_recorded() {
    let lines = client(
        4,
        &[
            "open 5",
            "turn",
            "abort 5 whole",
            "receive 8c050000",
            "state",
            "open 5",
        ],
    );
    assert_eq!(
        lines[3],
        "receive ok data id 5 close eof length 0 late used 4"
    );
    assert_eq!(lines[5], "session 5 ended ended outcome no-retry");
    assert_eq!(lines[6], "open ok");
}

#[test]
fn a_number_is_not_reopened_while_our_end_is_unsent() {
    // The close makes our open side ended by the reply Abort; only then may it be opened again.
    let lines = client(
        4,
        &[
            "open 5",
            "put 5 6162",
            "turn",
            "put 5 63",
            "open 5",
            "receive 8c050000",
            "state",
            "open 5",
            "queue 5",
            "turn",
        ],
    );
    assert_eq!(lines[4], "open refused 5");
    assert_eq!(
        lines[5],
        "receive ok data id 5 close eof length 0 used 4 wrote 20050000"
    );
    assert_eq!(lines[7], "session 5 ended ended outcome complete");
    assert_eq!(lines[8], "open ok");
    assert!(lines[9].starts_with("queue 630000"));
    assert_eq!(lines[10], "turn ok id 5 wrote 90050000");
}

#[test]
fn finished_clients_do_not_reply() {
    for (message, outcome) in [
        ("receive 20050000", "retry"),
        ("receive 22050000", "no-retry"),
        ("receive 8c050000", "complete"),
    ] {
        let lines = client(
            4,
            &[
                "open 5",
                "finish 5",
                "turn",
                message,
                "state",
                "abort 5 whole",
            ],
        );
        assert!(!lines[3].contains("wrote"), "{}", lines[3]);
        assert_eq!(
            lines[5],
            format!("session 5 finished ended outcome {outcome}")
        );
        assert_eq!(lines[6], "abort refused 5");
    }
}

#[test]
fn servers_reply_by_a_partial_abort() {
    for finish in [&[][..], &["finish 5", "turn"][..]] {
        let lines = [
            &["receive 90050000"],
            finish,
            &["receive 20050000", "state"],
        ]
        .concat();
        let lines = server(4, &lines);
        let count = lines.len();
        assert_eq!(
            lines[count - 3],
            "receive ok abort id 5 length 0 used 4 wrote 22050000"
        );
        assert_eq!(lines[count - 1], "session 5 ended ended outcome none");
    }
}

#[test]
fn server_reuse_of_numbers() {
    let lines = server(
        4,
        &["receive 94050000", "finish 5", "turn", "receive 90050000"],
    );
    assert_eq!(last(lines), "receive refused 25 at 1 wrote 08000000");
    let lines = server(
        4,
        &[
            "receive 94050000",
            "finish 5",
            "turn",
            "close 5",
            "receive 90050001ff",
            "state",
        ],
    );
    assert_eq!(lines[3], "close ok wrote 30050000");
    assert_eq!(lines[4], "receive ok data id 5 open length 1 used 5");
    assert_eq!(
        lines[6],
        "session 5 open open outcome none out 1024 in 1023 waiting 0"
    );
}

#[test]
fn an_open_is_never_late() {
    let lines = server(
        4,
        &["receive 90050000", "abort 5 whole", "receive 90050000"],
    );
    assert_eq!(last(lines), "receive refused 25 at 1 wrote 08000000");
}

#[test]
fn messages_in_the_wrong_state() {
    for message in ["80050000", "20050000", "30050000", "10050001"] {
        let receive = format!("receive {message}");
        for before in [&[][..], &["open 5"][..]] {
            let lines = [before, &[receive.as_str()]].concat();
            assert_eq!(
                last(client(4, &lines)),
                "receive refused 25 at 1 wrote 08000000"
            );
        }
    }
    assert_eq!(
        last(client(4, &["open 5", "turn", "receive 30050000"])),
        "receive refused 25 at 1 wrote 08000000"
    );
}

#[test]
fn aborts_of_openings_restore_the_sides() {
    let lines = client(
        4,
        &[
            "open 5",
            "put 5 01",
            "abort 5 whole 3",
            "abort 5 partial",
            "abort 5 whole",
            "state",
            "open 5",
            "finish 5",
            "turn",
            "receive 20050000",
            "open 5",
            "abort 5 whole",
            "state",
        ],
    );
    assert_eq!(lines[2], "abort refused 8");
    assert_eq!(lines[3], "abort refused 4");
    assert_eq!(lines[4], "abort ok");
    assert_eq!(lines[6], "session 5 idle none outcome retry");
    assert_eq!(last(lines), "session 5 finished ended outcome retry");
}
