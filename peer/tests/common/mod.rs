//! Scripts for one end after the headers, and the lines that they print.

use peer::play::play_bytes;

/// Plays lines and gives what is printed.
pub fn play(lines: &[&str]) -> Vec<String> {
    let text = play_bytes(lines.join("\n").as_bytes(), None);
    let text = String::from_utf8(text).unwrap();
    text.lines().map(str::to_string).collect()
}

/// Plays lines after a client with header number 4 met a server with header number `far`.
pub fn client(far: u16, lines: &[&str]) -> Vec<String> {
    let header = format!("receive 4a6d757801{far:04x}00");
    let mut all = vec!["client 4", "start", &header];
    all.extend(lines);
    play(&all)[2..].to_vec()
}

/// Plays lines after a server with header number `own` met a client with header number 4.
pub fn server(own: u16, lines: &[&str]) -> Vec<String> {
    let first = format!("server {own}");
    let mut all = vec![first.as_str(), "receive 4a6d757801000400"];
    all.extend(lines);
    play(&all)[1..].to_vec()
}

/// Gives the last line printed.
pub fn last(lines: Vec<String>) -> String {
    lines.last().unwrap().clone()
}
