use super::*;
use crate::noise::{BAD_FIRST_LINES, BAD_LINES};

#[test]
fn good_first_lines() {
    let first = read_first(b"client 0").unwrap();
    assert_eq!(
        (first.role, first.header, first.queue),
        (Role::Client, 0, None)
    );
    let first = read_first(b"server 65535 queue 70000").unwrap();
    assert_eq!(first.header, 65535);
    assert_eq!(first.queue, Some(70_000));
}

#[test]
fn bad_first_lines() {
    let more: [&[u8]; 5] = [
        b"",
        b"client +4",
        b"client 4 room 1",
        b"Client 4",
        b"client 4\r",
    ];
    for line in BAD_FIRST_LINES.into_iter().chain(more) {
        assert_eq!(
            read_first(line),
            None,
            "{:?}",
            String::from_utf8_lossy(line)
        );
    }
}

#[test]
fn bad_calls() {
    let more: [&[u8]; 26] = [
        b"",
        b" ",
        b"star",
        b"start ",
        b"start 1 1",
        b"start\0",
        b"start\t",
        b"open ",
        b"open 00",
        b"open 05",
        b"open -1",
        b"open 1000000000",
        b"open 99999999999999999999999",
        b"put 5 6",
        b"put 5 6G",
        b"put 5 --",
        b"put  5 61",
        b"grant 5 1 1 1",
        b"abort 5 whole 600 1",
        b"abort 5 Whole",
        b"ping",
        b"lost 1",
        b"lost\xff",
        b"receive 0",
        b"receive - 66001",
        b"queue",
    ];
    for line in BAD_LINES.into_iter().chain(more) {
        assert_eq!(read_call(line), None, "{:?}", String::from_utf8_lossy(line));
    }
}

#[test]
fn lengths_of_bytes() {
    let long = |word: &str, count: usize| format!("{word} {}", "ab".repeat(count));
    assert!(read_call(long("put 1", 1024).as_bytes()).is_some());
    assert!(read_call(long("put 1", 1025).as_bytes()).is_none());
    assert!(read_call(long("receive", 66_000).as_bytes()).is_some());
    assert!(read_call(long("receive", 66_001).as_bytes()).is_none());
    let with_room = long("receive", 66_000) + " 66000";
    assert!(read_call(with_room.as_bytes()).is_some());
    assert!(with_room.len() <= LONGEST_LINE);
}

#[test]
fn calls_read_back() {
    let lines: [&[u8]; 20] = [
        b"start",
        b"start 0",
        b"open 255",
        b"put 5 -",
        b"put 5 616263",
        b"finish 0",
        b"turn",
        b"turn 66000",
        b"grant 5 999999999",
        b"grant 5 0 3",
        b"abort 5 whole",
        b"abort 127 partial 4",
        b"close 9 4",
        b"ping 65535",
        b"shutdown 4",
        b"lost",
        b"receive -",
        b"receive 00ff 12",
        b"state",
        b"queue 128",
    ];
    for line in lines {
        let mut back = Vec::new();
        read_call(line).unwrap().write(&mut back);
        assert_eq!(back, line);
    }
}

#[test]
fn lines_are_counted() {
    let mut lines = Lines::new(&b"# \0\xff\n\nstate"[..]);
    assert_eq!(lines.next_line().unwrap(), Some(Line::Skipped));
    assert_eq!(lines.next_line().unwrap(), Some(Line::Skipped));
    assert_eq!(lines.next_line().unwrap(), Some(Line::Text(b"state")));
    assert_eq!(lines.number, 3);
    assert_eq!(lines.next_line().unwrap(), None);
    assert_eq!(lines.number, 3);
}

#[test]
fn long_lines() {
    let mut text = vec![b'a'; 1_000_000];
    text.push(b'\n');
    text.push(b'#');
    text.extend(vec![b'b'; 1_000_000]);
    let mut lines = Lines::new(&text[..]);
    assert_eq!(lines.next_line().unwrap(), Some(Line::TooLong));
    assert_eq!(lines.next_line().unwrap(), Some(Line::Skipped));
    assert_eq!(lines.next_line().unwrap(), None);
}
