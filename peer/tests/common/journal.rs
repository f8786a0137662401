//! Scripts for a journal, and the lines that they print.

use peer::journal::play::play_bytes;

/// Plays lines and gives what is printed.
pub fn play(lines: &[&str]) -> Vec<String> {
    let text = play_bytes(lines.join("\n").as_bytes(), None);
    let text = String::from_utf8(text).unwrap();
    text.lines().map(str::to_string).collect()
}

/// Plays lines on a region of that many blocks.
pub fn on_blocks(blocks: usize, lines: &[&str]) -> Vec<String> {
    let region = format!("region {}", blocks * 512);
    let mut all = vec![region.as_str()];
    all.extend(lines);
    play(&all)
}

/// Gives the last line printed.
pub fn last(lines: Vec<String>) -> String {
    lines.last().unwrap().clone()
}
