//! The numbered cases of docs/PROTOCOL.md, played as scripts.

mod common;

use common::{client, last, play, server};

#[test]
fn case_1_header() {
    let lines = play(&[
        "server 7",
        "receive 4a6d757801000400",
        "receive 90000000",
        "state",
    ]);
    assert_eq!(
        lines[0],
        "receive ok header 4 used 8 wrote 4a6d757801000700"
    );
    assert_eq!(
        lines[3],
        "session 0 open open outcome none out 1024 in 1792 waiting 0"
    );
}

#[test]
fn case_1_endless_header() {
    let lines = play(&[
        "server 0",
        "receive 4a6d757801000000",
        "receive 90000000",
        "state",
    ]);
    assert_eq!(
        lines[3],
        "session 0 open open outcome none out endless in endless waiting 0"
    );
}

#[test]
fn case_1_bad_headers() {
    let lines = play(&["server 4", "receive 4a6d757802000400", "state", "lost"]);
    assert_eq!(
        lines[0],
        "receive refused 22 at 4 wrote 4a6d75780100040008000000"
    );
    assert_eq!(lines[1], "connection server fresh over last 127 ping none");
    assert_eq!(lines[2], "lost refused 2");
    let lines = play(&["client 4", "start", "receive 4a6d757802000400", "state"]);
    assert_eq!(lines[1], "receive refused 22 at 4 wrote 08000000");
    assert_eq!(
        lines[2],
        "connection client started over last 127 ping none"
    );
}

#[test]
fn case_2_open_data() {
    let lines = server(4, &["receive 90050003616263", "state"]);
    assert_eq!(lines[0], "receive ok data id 5 open length 3 used 7");
    assert_eq!(
        lines[2],
        "session 5 open open outcome none out 1024 in 1021 waiting 0"
    );
}

#[test]
fn case_3_messages() {
    let open = ["open 7", "turn", "receive 84070000"];
    let with = |line| last(client(4, &[open[0], open[1], open[2], line]));
    assert_eq!(
        with("receive 22070000"),
        "receive ok abort id 7 partial length 0 used 4 wrote 20070000"
    );
    assert_eq!(
        with("receive 30070000"),
        "receive ok close id 7 used 4 wrote 20070000"
    );
    assert_eq!(
        with("receive 01000000"),
        "receive refused 20 at 0 wrote 08000000"
    );
    assert_eq!(
        with("receive 04800000"),
        "receive refused 21 at 1 wrote 08000000"
    );
    assert_eq!(
        last(server(4, &["receive 90070000", "receive 22070000"])),
        "receive refused 24 at 0 wrote 08000000"
    );
}

#[test]
fn case_4_inbound_ration() {
    let data = |first: &str, length: usize| {
        let bytes = "00".repeat(length);
        format!("receive {first}{length:04x}{bytes}")
    };
    let all = data("8000", 256);
    let none = data("8000", 0);
    let more = data("8000", 1);
    let lines = server(1, &["receive 90000000", &all, &none, "state", &more]);
    assert_eq!(lines[1], "receive ok data id 0 length 256 used 260");
    assert_eq!(lines[2], "receive ok data id 0 length 0 used 4");
    assert_eq!(
        lines[4],
        "session 0 open open outcome none out 1024 in 0 waiting 0"
    );
    assert_eq!(lines[5], "receive refused 26 at 2 wrote 08000000");
    let too_long = data("9000", 257);
    assert_eq!(
        last(server(1, &[&too_long])),
        "receive refused 26 at 2 wrote 08000000"
    );
}

#[test]
fn case_5_outbound_ration() {
    // 1,024 + 1,073,725,440 + 1,073,725,440 + 31,096 = 2,147,483,000
    let brim = [
        "open 0",
        "turn",
        "receive 1e00ffff",
        "receive 1e00ffff",
        "receive 10007978",
    ];
    let with = |more: &[&str]| {
        let lines = [&brim, more].concat();
        client(4, &lines)
    };
    assert!(last(with(&["state"])).contains("out 2147483000 "));
    let full = with(&["receive 10000287", "state"]);
    assert_eq!(
        full[5],
        "receive ok increment id 0 shift 0 increment 647 used 4"
    );
    assert!(last(full).contains("out 2147483647 "));
    assert_eq!(
        last(with(&["receive 10000288"])),
        "receive refused 27 at 2 wrote 08000000"
    );
}

#[test]
fn case_6_whole_run() {
    let lines = client(
        4,
        &[
            "open 5",
            "open 2",
            "put 5 616263",
            "finish 5",
            "turn",
            "turn",
            "turn",
            "state",
        ],
    );
    assert_eq!(lines[4], "turn ok id 2 wrote 90020000");
    assert_eq!(lines[5], "turn ok id 5 wrote 94050003616263");
    assert_eq!(lines[6], "turn refused 9");
    assert_eq!(lines[7], "connection client up 4 last 5 ping none");
    assert_eq!(
        lines[8],
        "session 2 open open outcome running out 1024 in 1024 waiting 0"
    );
    assert_eq!(lines[9], "session 5 finished open outcome running in 1024");
}

#[test]
fn case_8_ping() {
    assert_eq!(
        last(server(4, &["receive 04001234"])),
        "receive ok ping cookie 4660 used 4 wrote 06001234"
    );
    let lines = client(4, &["ping 9", "ping 9", "receive 06000009", "state"]);
    assert_eq!(lines[0], "ping ok wrote 04000009");
    assert_eq!(lines[1], "ping refused 13");
    assert_eq!(lines[2], "receive ok pingack cookie 9 used 4");
    assert_eq!(lines[3], "connection client up 4 last 127 ping none");
    for (bad, refusal) in [
        ("receive 06000008", "28 at 2"),
        ("receive 06010009", "21 at 1"),
    ] {
        let answer = last(client(4, &["ping 9", bad]));
        assert_eq!(answer, format!("receive refused {refusal} wrote 08000000"));
    }
    assert_eq!(
        last(client(4, &["receive 06000000"])),
        "receive refused 28 at 2 wrote 08000000"
    );
}
