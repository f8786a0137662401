//! Makes a script that shows a difference short: by dropping lines, then bytes.

use crate::script::{self, Call};
use crate::wire::MESSAGE_START;
use std::ops::Range;
use std::time::{Duration, Instant};

/// The most trials that a shrink may take.
const LARGEST_BUDGET: u32 = 3_000;

/// The most time that a shrink may take.
const LARGEST_TIME: Duration = Duration::from_secs(60);

/// A script of at most this many lines is short enough to try every few lines of it.
const SHORT: usize = 40;

/// A script being shrunk, as its lines.
struct Shrinker<'a> {
    lines: Vec<Vec<u8>>,
    budget: u32,
    end: Instant,
    differs: &'a mut dyn FnMut(&[u8]) -> bool,
}

/// Gives a short script that still differs, for a script that differs.
pub fn shrink(script: &[u8], differs: &mut dyn FnMut(&[u8]) -> bool) -> Vec<u8> {
    let lines = script
        .split(|&byte| byte == b'\n')
        .map(<[u8]>::to_vec)
        .collect();
    let mut shrinker = Shrinker {
        lines,
        budget: LARGEST_BUDGET,
        end: Instant::now() + LARGEST_TIME,
        differs,
    };
    // If the difference depends on a missing 0A at the end, the script stays as it is.
    if !shrinker.still(0..shrinker.lines.len(), &[], 0..0) {
        return script.to_vec();
    }
    shrinker.cut_tail();
    shrinker.drop_lines();
    shrinker.simplify_lines();
    shrinker.drop_lines();
    while shrinker.drop_windows() || shrinker.drop_pairs() {}
    shrinker.simplify_lines();
    join(&[&shrinker.lines])
}

/// Gives pieces of lines as a script, each line ended by 0A, without empty ones at the end.
fn join(pieces: &[&[Vec<u8>]]) -> Vec<u8> {
    let mut script = Vec::new();
    for line in pieces.iter().copied().flatten() {
        script.extend_from_slice(line);
        script.push(b'\n');
    }
    while script.ends_with(b"\n\n") {
        script.pop();
    }
    script
}

impl Shrinker<'_> {
    /// Tells whether no more trials are allowed.
    fn spent(&self) -> bool {
        self.budget == 0 || Instant::now() > self.end
    }

    /// Tells whether a script of these lines still differs, as long as trials and time last.
    fn still(&mut self, before: Range<usize>, middle: &[Vec<u8>], after: Range<usize>) -> bool {
        if self.spent() {
            return false;
        }
        self.budget -= 1;
        let script = join(&[&self.lines[before], middle, &self.lines[after]]);
        (self.differs)(&script)
    }

    /// Keeps the shortest beginning that still differs, by halving.
    fn cut_tail(&mut self) {
        let (mut too_short, mut enough) = (0, self.lines.len());
        while enough - too_short > 1 {
            let middle = (too_short + enough) / 2;
            if self.still(0..middle, &[], 0..0) {
                enough = middle;
            } else {
                too_short = middle;
            }
        }
        self.lines.truncate(enough);
    }

    /// Drops pieces of lines, large ones first, until no single line can go.
    fn drop_lines(&mut self) {
        let mut size = (self.lines.len() / 2).max(1);
        while !self.spent() {
            let dropped = self.drop_pieces(size);
            if size == 1 && !dropped {
                return;
            }
            size = (size / 2).max(1);
        }
    }

    /// Tries to drop each piece of this size, from the end on; tells whether one was dropped.
    fn drop_pieces(&mut self, size: usize) -> bool {
        let mut dropped = false;
        let mut end = self.lines.len();
        while end > 0 && !self.spent() {
            let start = end.saturating_sub(size);
            if self.still(0..start, &[], end..self.lines.len()) {
                self.lines.drain(start..end);
                dropped = true;
            }
            end = start;
        }
        dropped
    }

    /// Drops a few neighbouring lines of a short script at once, wherever they are.
    fn drop_windows(&mut self) -> bool {
        let count = self.lines.len();
        if count > SHORT {
            return false;
        }
        for size in (1..=6).rev() {
            for start in 0..(count + 1).saturating_sub(size) {
                if self.still(0..start, &[], start + size..count) {
                    self.lines.drain(start..start + size);
                    return true;
                }
            }
        }
        false
    }

    /// Drops two lines of a short script at once.
    fn drop_pairs(&mut self) -> bool {
        let count = self.lines.len();
        if count > SHORT {
            return false;
        }
        for second in 0..count {
            for first in 0..second {
                let between = self.lines[first + 1..second].to_vec();
                if self.still(0..first, &between, second + 1..count) {
                    self.lines.remove(second);
                    self.lines.remove(first);
                    return true;
                }
            }
        }
        false
    }

    /// Makes each line simpler as long as something simpler still differs.
    fn simplify_lines(&mut self) {
        for place in 0..self.lines.len() {
            while !self.spent() && self.simplify(place) {}
        }
    }

    /// Tries the simpler forms of one line and keeps the first that still differs.
    fn simplify(&mut self, place: usize) -> bool {
        for simpler in simpler_lines(&self.lines[place]) {
            let simpler = [simpler];
            if self.still(0..place, &simpler, place + 1..self.lines.len()) {
                let [simpler] = simpler;
                self.lines[place] = simpler;
                return true;
            }
        }
        false
    }
}

/// Gives simpler forms of a line, the simplest first.
fn simpler_lines(line: &[u8]) -> Vec<Vec<u8>> {
    match script::read_call(line) {
        Some(call) => simpler_calls(&call).iter().map(text_of).collect(),
        None => simpler_text(line),
    }
}

/// Gives a call's line.
fn text_of(call: &Call) -> Vec<u8> {
    let mut line = Vec::new();
    call.write(&mut line);
    line
}

/// Gives simpler forms of a line that is not a call: with a piece or a byte left out.
fn simpler_text(line: &[u8]) -> Vec<Vec<u8>> {
    let mut forms = Vec::new();
    if line.len() > 8 {
        forms.push(line[..line.len() / 2].to_vec());
        forms.push(line[line.len() / 2..].to_vec());
    }
    if line.len() <= 64 {
        for place in 0..line.len() {
            let mut form = line.to_vec();
            form.remove(place);
            forms.push(form);
        }
    }
    forms
}

/// Gives simpler forms of a call: without its room, with fewer or plainer bytes.
fn simpler_calls(call: &Call) -> Vec<Call> {
    let mut forms = Vec::new();
    let mut roomless = call.clone();
    if let Some(room) = roomless.room_mut() {
        if room.take().is_some() {
            forms.push(roomless);
        }
    }
    match call {
        Call::Put { id, bytes } => {
            let id = *id;
            forms.extend(
                simpler_bytes(bytes)
                    .into_iter()
                    .map(|bytes| Call::Put { id, bytes }),
            );
        }
        Call::Receive { bytes, room } => {
            let room = *room;
            let mut simpler = shorter_messages(bytes);
            simpler.extend(simpler_bytes(bytes));
            forms.extend(
                simpler
                    .into_iter()
                    .map(|bytes| Call::Receive { bytes, room }),
            );
        }
        _ => {}
    }
    forms
}

/// Gives a message with a shorter body and the length that goes with it.
fn shorter_messages(bytes: &[u8]) -> Vec<Vec<u8>> {
    let Some(&[_, _, high, low]) = bytes.get(..MESSAGE_START) else {
        return Vec::new();
    };
    let length = u16::from_be_bytes([high, low]);
    if length == 0 || bytes.len() < MESSAGE_START + usize::from(length) {
        return Vec::new();
    }
    [0, length / 2, length - 1]
        .iter()
        .map(|&shorter| {
            let mut form = bytes[..MESSAGE_START + usize::from(shorter)].to_vec();
            form[2..4].copy_from_slice(&shorter.to_be_bytes());
            form
        })
        .collect()
}

/// Gives fewer bytes, or the same number with one that was not zero made zero.
fn simpler_bytes(bytes: &[u8]) -> Vec<Vec<u8>> {
    let mut forms = Vec::new();
    let count = bytes.len();
    for shorter in [0, count / 2, count.saturating_sub(1)] {
        if shorter < count {
            forms.push(bytes[..shorter].to_vec());
        }
    }
    if bytes.iter().any(|&byte| byte != 0) {
        forms.push(vec![0; count]);
        if count > MESSAGE_START {
            let mut form = bytes[..MESSAGE_START].to_vec();
            form.resize(count, 0);
            forms.push(form);
        }
    }
    if count <= 16 {
        for place in 0..count {
            if bytes[place] != 0 {
                let mut form = bytes.to_vec();
                form[place] = 0;
                forms.push(form);
            }
        }
    }
    forms.retain(|form| form != bytes);
    forms
}

#[cfg(test)]
mod tests {
    use super::*;

    /// Tells whether a script holds all the pieces of text.
    fn holds(script: &[u8], pieces: &[&str]) -> bool {
        let text = String::from_utf8_lossy(script);
        pieces.iter().all(|piece| text.contains(piece))
    }

    #[test]
    fn only_the_lines_that_matter_stay() {
        let script = crate::make::make(3, 150);
        let mut script = script.split(|&b| b == b'\n').collect::<Vec<_>>();
        script.insert(20, b"put 9 0102030405 ");
        script.insert(40, b"receive 040012340000 600");
        let script = script.join(&b'\n');
        let mut differs = |script: &[u8]| holds(script, &["put 9 01", "receive 04001234"]);
        let short = shrink(&script, &mut differs);
        let text = String::from_utf8(short).unwrap();
        assert_eq!(text.lines().count(), 2, "{text}");
        assert!(text.contains("receive 04001234\n"), "{text}");
    }

    #[test]
    fn bodies_are_shortened_with_their_length() {
        let mut differs = |script: &[u8]| {
            let text = String::from_utf8_lossy(script).to_string();
            text.starts_with("receive 80")
                && matches!(
                    script::read_call(text.trim_end().as_bytes()),
                    Some(Call::Receive { bytes, .. })
                        if bytes.len() > 5 && bytes.len() == 4 + usize::from(bytes[3])
                )
        };
        let short = shrink(b"receive 80050006010203040506\n", &mut differs);
        assert_eq!(short, b"receive 800000020000\n");
    }
}
