//! The lines of a script, one by one, each of bounded length.

use super::LONGEST_LINE;
use std::io::{self, BufRead};

/// One line of a script, as far as it matters.
#[derive(Debug, PartialEq, Eq)]
pub enum Line<'a> {
    /// Empty, or begins with `#`.
    Skipped,
    /// Anything else that may be a call.
    Text(&'a [u8]),
    /// Longer than any call, hence a script error.
    TooLong,
}

/// Reads lines one by one and never keeps more than one line of bounded length.
pub struct Lines<R> {
    input: R,
    kept: Vec<u8>,
    /// The number of the line read last, counted from 1.
    pub number: u64,
}

impl<R: BufRead> Lines<R> {
    pub fn new(input: R) -> Lines<R> {
        Lines {
            input,
            kept: Vec::new(),
            number: 0,
        }
    }

    /// Gives the next line, or nothing at the end of the input.
    pub fn next_line(&mut self) -> io::Result<Option<Line<'_>>> {
        self.kept.clear();
        let mut length = 0;
        loop {
            let part = self.input.fill_buf()?;
            if part.is_empty() {
                if length == 0 {
                    return Ok(None);
                }
                break;
            }
            let end = part.iter().position(|&byte| byte == b'\n');
            let text = &part[..end.unwrap_or(part.len())];
            length += text.len();
            let space = (LONGEST_LINE + 1).saturating_sub(self.kept.len());
            self.kept.extend_from_slice(&text[..text.len().min(space)]);
            let used = text.len() + usize::from(end.is_some());
            self.input.consume(used);
            if end.is_some() {
                break;
            }
        }
        self.number += 1;
        Ok(Some(self.line()))
    }

    /// Sorts the line that was kept.
    fn line(&self) -> Line<'_> {
        match self.kept.first() {
            None | Some(b'#') => Line::Skipped,
            Some(_) if self.kept.len() > LONGEST_LINE => Line::TooLong,
            Some(_) => Line::Text(&self.kept),
        }
    }
}
