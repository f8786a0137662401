//! The place of the byte at fault that a violation tells, played as scripts.

mod common;

use common::{client, last, play, server};

/// Gives the line that a violation prints after the headers.
fn refused(number: u8, place: u32) -> String {
    format!("receive refused {number} at {place} wrote 08000000")
}

/// Asks that a client and a server refuse these bytes right after the headers.
fn ask_both(bytes: &str, number: u8, place: u32) {
    let receive = format!("receive {bytes}");
    let wanted = refused(number, place);
    assert_eq!(last(client(4, &[&receive])), wanted, "client, {bytes}");
    assert_eq!(last(server(4, &[&receive])), wanted, "server, {bytes}");
}

/// Asks that a client or a server with number 5 in use refuses these bytes.
fn ask_with_session(role: &str, bytes: &str, number: u8, place: u32) {
    let receive = format!("receive {bytes}");
    let lines = match role {
        "client" => client(4, &["open 5", "turn", &receive]),
        _ => server(4, &["receive 90050000", &receive]),
    };
    assert_eq!(last(lines), refused(number, place), "{role}, {bytes}");
}

#[test]
fn a_first_byte_of_no_type_is_at_0() {
    for bytes in ["01000000", "0a000000", "24050000", "ff000000"] {
        ask_both(bytes, 20, 0);
    }
    // Bit 0 is reserved in these types, but no type has such a first byte.
    for bytes in ["11050000", "21050000", "81050000", "91050000"] {
        ask_both(bytes, 20, 0);
    }
    for bytes in ["01800000", "31850001", "41050100"] {
        ask_both(bytes, 20, 0);
    }
    ask_both("4a6d757801000400", 20, 0);
}

#[test]
fn reserved_bits_of_byte_1_in_every_type() {
    for first in ["00", "02", "04", "06", "08"] {
        for second in ["01", "7f", "80", "ff"] {
            ask_both(&format!("{first}{second}0000"), 21, 1);
        }
    }
    for first in [
        "10", "1e", "20", "22", "30", "40", "80", "84", "8e", "90", "9e",
    ] {
        for second in ["80", "85", "ff"] {
            ask_both(&format!("{first}{second}0000"), 21, 1);
        }
    }
}

#[test]
fn reserved_bits_of_bytes_2_and_3() {
    for first in ["30", "40"] {
        for byte in ["01", "80", "ff"] {
            ask_both(&format!("{first}05{byte}00"), 21, 2);
            ask_both(&format!("{first}0500{byte}"), 21, 3);
        }
        ask_both(&format!("{first}7f0001"), 21, 3);
    }
}

#[test]
fn the_first_of_several_bytes_with_wrong_reserved_bits() {
    for first in ["30", "40"] {
        for (rest, place) in [
            ("800001", 1),
            ("800100", 1),
            ("ffffff", 1),
            ("050101", 2),
            ("7fffff", 2),
        ] {
            ask_both(&format!("{first}{rest}"), 21, place);
        }
    }
}

#[test]
fn bytes_2_and_3_of_the_other_types_are_not_reserved() {
    // The length, the increment and the cookie may be any; a body that is not there is 10.
    for first in ["00", "08"] {
        let receive = format!("receive {first}00ffff");
        assert_eq!(last(client(4, &[&receive])), "receive refused 10");
        assert_eq!(last(server(4, &[&receive])), "receive refused 10");
    }
    let answer = last(server(4, &["receive 0400ffff"]));
    assert_eq!(answer, "receive ok ping cookie 65535 used 4 wrote 0600ffff");
    let answer = last(server(4, &["receive 90050000", "receive 1005ffff"]));
    assert!(answer.starts_with("receive ok increment id 5 "));
}

/// Gives what a client and a server answer to a first header.
fn answers_to_header(bytes: &str) -> (String, String) {
    let receive = format!("receive {bytes}");
    let client = play(&["client 4", "start", &receive]);
    let server = play(&["server 4", &receive]);
    (last(client), last(server))
}

/// Asks that a client and a server refuse a first header.
fn ask_header(bytes: &str, place: u32) {
    let (client, server) = answers_to_header(bytes);
    assert_eq!(client, refused(22, place), "{bytes}");
    let both = "4a6d75780100040008000000";
    let wanted = format!("receive refused 22 at {place} wrote {both}");
    assert_eq!(server, wanted, "{bytes}");
}

#[test]
fn each_wrong_byte_of_a_header() {
    ask_header("4b6d757801000400", 0);
    ask_header("4a4d757801000400", 1);
    ask_header("4a6d007801000400", 2);
    ask_header("4a6d757a01000400", 3);
    ask_header("4a6d757802000400", 4);
    ask_header("4a6d757800000400", 4);
    ask_header("4a6d757801000401", 7);
    ask_header("4a6d757801000080", 7);
    ask_header("4a6d757801ffff01", 7);
}

#[test]
fn the_first_of_several_wrong_bytes_of_a_header() {
    ask_header("0000000000000000", 0);
    ask_header("ffffffffffffffff", 0);
    ask_header("4a00000000000000", 1);
    ask_header("4a6d747902ffff00", 2);
    ask_header("4a6d757902000400", 3);
    ask_header("4a6d757802ffff01", 4);
    ask_header("4a6d757801000480", 7);
}

#[test]
fn the_header_number_is_never_wrong() {
    for number in [0, 1, 0x00FF, 0x0100, 0x8000, 0xFF00, 0xFFFF] {
        let (client, server) = answers_to_header(&format!("4a6d757801{number:04x}00"));
        let wanted = format!("receive ok header {number} used 8");
        assert_eq!(client, wanted);
        assert_eq!(server, format!("{wanted} wrote 4a6d757801000400"));
    }
}

#[test]
fn a_header_that_is_cut_has_no_place() {
    for bytes in ["00", "4b6d7578", "4a6d7578020004", "ffffffffffffff"] {
        let (client, server) = answers_to_header(bytes);
        assert_eq!(client, "receive refused 10", "{bytes}");
        assert_eq!(server, "receive refused 10", "{bytes}");
    }
    ask_header("4a6d75780100040190050000", 7);
}

#[test]
fn a_wrong_sender_is_at_0() {
    for (role, bytes) in [
        ("server", "02000000"),
        ("server", "02000009"),
        ("server", "30050000"),
        ("client", "40050000"),
    ] {
        ask_with_session(role, bytes, 23, 0);
    }
}

#[test]
fn wrong_flags_are_at_0() {
    for (role, bytes) in [
        ("client", "90050000"),
        ("client", "88050000"),
        ("client", "82050000"),
        ("client", "8a050000"),
        ("server", "88050000"),
        ("server", "8c050000"),
        ("server", "86050000"),
        ("server", "22050000"),
        ("server", "82050009"),
    ] {
        ask_with_session(role, bytes, 24, 0);
    }
}

#[test]
fn a_wrong_state_is_at_1() {
    for bytes in ["80060000", "84060000", "20060000", "10060001"] {
        ask_with_session("client", bytes, 25, 1);
        ask_with_session("server", bytes, 25, 1);
    }
    ask_with_session("client", "30050000", 25, 1);
    ask_with_session("client", "30060000", 25, 1);
    ask_with_session("server", "40060000", 25, 1);
    ask_with_session("server", "90050000", 25, 1);
    ask_both("80000000", 25, 1);
    ask_both("807f0000", 25, 1);
}

#[test]
fn a_length_above_the_ration_is_at_2() {
    let data = |first: &str, length: usize| {
        let body = "00".repeat(length);
        format!("receive {first}{length:04x}{body}")
    };
    for length in [257, 512, 65_535] {
        let open = data("9005", length);
        assert_eq!(last(server(1, &[&open])), refused(26, 2), "{length}");
    }
    let (all, one) = (data("9005", 256), data("8005", 1));
    assert_eq!(last(server(1, &[&all, &one])), refused(26, 2));
    let more = data("8405", 1025);
    assert_eq!(last(client(4, &["open 5", "turn", &more])), refused(26, 2));
}

#[test]
fn an_increment_past_the_largest_ration_is_at_2() {
    let full = ["receive 1e05ffff", "receive 1e05ffff"];
    for last_one in ["receive 10057fff", "receive 1e050100", "receive 1e05ffff"] {
        let lines = client(4, &[&["open 5", "turn"], &full[..], &[last_one]].concat());
        assert_eq!(last(lines), refused(27, 2), "{last_one}");
        let lines = server(4, &[&["receive 90050000"], &full[..], &[last_one]].concat());
        assert_eq!(last(lines), refused(27, 2), "{last_one}");
    }
}

#[test]
fn a_wrong_cookie_is_at_2() {
    // Which of the two bytes differs does not count, nor whether a ping is outstanding.
    for bytes in ["06001235", "06000034", "0600edcb", "06000000"] {
        let receive = format!("receive {bytes}");
        let lines = ["ping 4660", &receive];
        assert_eq!(last(client(4, &lines)), refused(28, 2), "{bytes}");
        assert_eq!(last(server(4, &lines)), refused(28, 2), "{bytes}");
        ask_both(bytes, 28, 2);
    }
}

#[test]
fn the_place_belongs_to_the_number_that_is_told() {
    // A Close from a client is 23 at 0, one for an idle number 25 at 1; reserved bits are asked before.
    ask_with_session("server", "30050001", 21, 3);
    ask_with_session("client", "30060100", 21, 2);
    ask_with_session("client", "40050001", 21, 3);
    // Flags are asked before the state and the ration.
    ask_with_session("client", "90060000", 24, 0);
    ask_with_session("server", "8206ffff", 24, 0);
    // The state is asked before the ration.
    let long = format!("9005ffff{}", "00".repeat(65_535));
    ask_with_session("server", &long, 25, 1);
}

#[test]
fn places_count_from_the_message_that_is_taken() {
    let lines = client(
        4,
        &["receive 0400000130050100", "receive 30050100", "state"],
    );
    assert_eq!(lines[0], "receive ok ping cookie 1 used 4 wrote 06000001");
    assert_eq!(lines[1], refused(21, 2));
    assert_eq!(lines[2], "connection client up 4 over last 127 ping none");
    ask_both("3080000001000000", 21, 1);
}

#[test]
fn refusals_below_20_have_no_place() {
    let one = |line: &str| last(client(4, &[line]));
    assert_eq!(one("receive 0180"), "receive refused 10");
    assert_eq!(one("receive 00000001"), "receive refused 10");
    assert_eq!(one("receive 01000000 11"), "receive refused 8");
    assert_eq!(one("grant 5 0"), "grant refused 5");
    let lines = client(4, &["receive 01000000", "receive 01000000", "turn"]);
    assert_eq!(lines[0], refused(20, 0));
    assert_eq!(lines[1..], ["receive refused 2", "turn refused 2"]);
}
