//! The report of what was reached, and of what was not.

use super::{Cover, Place, ANSWERS};
use crate::corners::CORNERS;
use crate::refusal::{self, Refusal, Violation};
use crate::script::WORDS;
use crate::session::{Ours, Theirs};
use std::collections::BTreeMap;
use std::fmt::Write;

/// Every kind of message that an end can take.
const TAKEN_NAMES: [&str; 25] = [
    "header",
    "noop",
    "shutdown",
    "ping",
    "pingack",
    "error",
    "increment",
    "increment shifted",
    "increment late",
    "abort",
    "abort partial",
    "close",
    "ack",
    "data",
    "data open",
    "data open eof",
    "data eof",
    "data close eof",
    "data eof ack",
    "data close eof ack",
    "data late",
    "data eof late",
    "data close eof late",
    "data eof ack late",
    "data close eof ack late",
];

/// Every kind of message that the calls of the engine write.
const SENT_NAMES: [&str; 15] = [
    "header",
    "shutdown",
    "ping",
    "pingack",
    "error",
    "increment",
    "abort",
    "abort partial",
    "reply abort",
    "reply abort partial",
    "close",
    "data",
    "data open",
    "data open eof",
    "data eof",
];

/// The pairs of sides that can be reached, for a client and for a server.
fn reachable_pairs() -> Vec<Place> {
    use Ours as O;
    use Theirs as T;
    let both = [
        (O::Idle, T::None),
        (O::Open, T::Open),
        (O::Open, T::Finished),
        (O::Finished, T::Open),
        (O::Finished, T::Finished),
        (O::Ended, T::Open),
        (O::Ended, T::Finished),
        (O::Ended, T::Ended),
    ];
    let client = [(O::Opening, T::None), (O::Finished, T::Ended)];
    let mut places = Vec::new();
    for server in [false, true] {
        places.extend(both.map(|(ours, theirs)| (server, ours, theirs)));
        if !server {
            places.extend(client.map(|(ours, theirs)| (server, ours, theirs)));
        }
    }
    places.sort();
    places
}

/// Gives every violation with each of its places.
fn violations() -> impl Iterator<Item = Violation> {
    let each = |(number, places): (u8, &'static [u32])| {
        let at = move |place: &u32| Violation::new(number, *place);
        places.iter().map(at)
    };
    refusal::PLACES.into_iter().flat_map(each)
}

/// Gives a violation as receive prints it, without the bytes that it wrote.
fn violation_name(violation: Violation) -> String {
    format!("receive refused {}", Refusal::from(violation))
}

/// The report.
impl Cover {
    /// Gives how often a refusal number was the answer.
    pub fn refusals(&self, number: u8) -> u64 {
        let place = usize::from(number);
        self.answers.iter().map(|row| row[place]).sum()
    }

    /// Gives how often a violation was found at its place.
    fn found(&self, violation: Violation) -> u64 {
        self.violations.get(&violation).copied().unwrap_or(0)
    }

    /// Gives, in words, all that scripts can reach and these did not.
    pub fn missing(&self) -> Vec<String> {
        let mut missing = self.missing_answers();
        let places = violations().filter(|violation| self.found(*violation) == 0);
        missing.extend(places.map(violation_name));
        missing.extend(self.missing_messages());
        missing.extend(self.missing_states());
        missing
    }

    /// Gives the calls' answers that were not reached.
    fn missing_answers(&self) -> Vec<String> {
        let mut missing = Vec::new();
        for (place, refusals) in refusal::BY_CALL.iter().enumerate() {
            let row = &self.answers[place];
            if row[0] == 0 {
                missing.push(format!("{} ok", WORDS[place]));
            }
            for &number in *refusals {
                if row[usize::from(number)] == 0 {
                    missing.push(format!("{} refused {number}", WORDS[place]));
                }
            }
        }
        missing
    }

    /// Gives the calls' answers and the violations' places that were reached and should not exist.
    pub fn surprises(&self) -> Vec<String> {
        let known: Vec<Violation> = violations().collect();
        let reached = self.violations.keys().copied();
        let strange = reached.filter(|violation| !known.contains(violation));
        let mut surprises: Vec<String> = strange.map(violation_name).collect();
        for (place, refusals) in refusal::BY_CALL.iter().enumerate() {
            for number in 1..ANSWERS as u8 {
                let times = self.answers[place][usize::from(number)];
                if times > 0 && !refusals.contains(&number) {
                    surprises.push(format!("{} refused {number}", WORDS[place]));
                }
            }
        }
        surprises
    }

    /// Gives the first bytes and messages that were not reached.
    fn missing_messages(&self) -> Vec<String> {
        let mut missing = Vec::new();
        for (first, times) in self.first_bytes.iter().enumerate() {
            if *times == 0 {
                missing.push(format!("first byte {first:02x}"));
            }
        }
        for name in TAKEN_NAMES {
            if !self.received.contains_key(name) {
                missing.push(format!("received: {name}"));
            }
        }
        for name in SENT_NAMES {
            if !self.sent.contains_key(name) {
                missing.push(format!("sent: {name}"));
            }
        }
        missing
    }

    /// Gives the corners and pairs of sides that were not reached.
    fn missing_states(&self) -> Vec<String> {
        let mut missing = Vec::new();
        for ((name, _), times) in CORNERS.iter().zip(&self.corners) {
            if *times == 0 {
                missing.push(format!("corner: {name}"));
            }
        }
        for place in reachable_pairs() {
            if !self.pairs.contains_key(&place) {
                missing.push(format!("sides: {}", place_name(&place)));
            }
        }
        missing
    }

    /// Gives the pairs of sides that were reached and should not exist.
    pub fn impossible_pairs(&self) -> Vec<String> {
        let possible = reachable_pairs();
        let reached = self.pairs.keys();
        reached
            .filter(|place| !possible.contains(place))
            .map(place_name)
            .collect()
    }

    /// Gives the report as text; `full` adds each call and message at each pair of sides.
    pub fn report(&self, full: bool) -> String {
        let mut text = String::new();
        let written = self.write_report(&mut text, full);
        written.expect("writing to memory does not fail");
        text
    }

    fn write_report(&self, text: &mut String, full: bool) -> std::fmt::Result {
        writeln!(
            text,
            "Coverage: {} scripts, {} calls, {} state and queue lines, {} script errors",
            self.scripts, self.calls, self.looks, self.script_errors
        )?;
        self.write_answers(text)?;
        self.write_refusals(text)?;
        self.write_violations(text)?;
        write_counts(text, "Messages received and taken", &self.received)?;
        write_counts(text, "Messages sent", &self.sent)?;
        self.write_pairs(text)?;
        let seen = self.first_bytes.iter().filter(|times| **times > 0).count();
        writeln!(
            text,
            "\nFirst bytes of messages: {seen} of 256 were received"
        )?;
        writeln!(text, "\nCorners")?;
        for ((name, _), times) in CORNERS.iter().zip(&self.corners) {
            writeln!(text, "  {name:<69} {times}")?;
        }
        if full {
            self.write_grid(text)?;
        }
        self.write_missing(text)
    }

    /// Writes each call with its answers.
    fn write_answers(&self, text: &mut String) -> std::fmt::Result {
        writeln!(text, "\nCalls and their answers (refused N: times)")?;
        for (place, row) in self.answers.iter().enumerate().take(12) {
            write!(text, "  {:<9} ok: {}", WORDS[place], row[0])?;
            for (number, times) in row.iter().enumerate().skip(1) {
                if *times > 0 {
                    write!(text, ", {number}: {times}")?;
                }
            }
            writeln!(text)?;
        }
        Ok(())
    }

    /// Writes each refusal number with its times.
    fn write_refusals(&self, text: &mut String) -> std::fmt::Result {
        writeln!(text, "\nRefusal numbers")?;
        for (number, meaning) in refusal::ALL {
            writeln!(
                text,
                "  {number:>2} {:>9}  {meaning}",
                self.refusals(number)
            )?;
        }
        for (number, reason) in refusal::UNREACHABLE {
            writeln!(text, "  {number} cannot be reached by a script: {reason}")?;
        }
        writeln!(
            text,
            "  12's other half (a bad clock value) cannot either: no script call has a clock"
        )
    }

    /// Writes each violation at each of its places with its times.
    fn write_violations(&self, text: &mut String) -> std::fmt::Result {
        writeln!(text, "\nViolations by the place of the byte at fault")?;
        for violation in violations() {
            let name = Refusal::from(violation).to_string();
            writeln!(text, "  {name:<26} {}", self.found(violation))?;
        }
        Ok(())
    }

    /// Writes the pairs of sides that were reached.
    fn write_pairs(&self, text: &mut String) -> std::fmt::Result {
        writeln!(
            text,
            "\nPairs of sides (ours theirs) after calls about a number"
        )?;
        for (place, times) in &self.pairs {
            writeln!(text, "  {:<26} {times}", place_name(place))?;
        }
        writeln!(
            text,
            "  cannot be reached: client open ended, server open ended and finished ended \
             (the reply Abort\n  ends our side at once), server opening"
        )
    }

    /// Writes each call and message at each pair of sides.
    fn write_grid(&self, text: &mut String) -> std::fmt::Result {
        writeln!(
            text,
            "\nCalls and messages by the sides that stood before (ok / late / refused)"
        )?;
        for ((place, event), cell) in &self.grid {
            writeln!(
                text,
                "  {:<26} {event:<18} {} / {} / {}",
                place_name(place),
                cell.ok,
                cell.late,
                cell.refused
            )?;
        }
        Ok(())
    }

    /// Writes what is missing, or that nothing is.
    fn write_missing(&self, text: &mut String) -> std::fmt::Result {
        let missing = self.missing();
        if missing.is_empty() {
            return writeln!(text, "\nNothing that a script can reach is missing.");
        }
        writeln!(text, "\nNot reached: {}", missing.join("; "))
    }
}

/// Gives a place in words.
fn place_name((server, ours, theirs): &Place) -> String {
    let role = if *server { "server" } else { "client" };
    format!("{role} {} {}", ours.word(), theirs.word())
}

/// Writes counts under a title.
fn write_counts(
    text: &mut String,
    title: &str,
    counts: &BTreeMap<&'static str, u64>,
) -> std::fmt::Result {
    writeln!(text, "\n{title}")?;
    for (name, times) in counts {
        writeln!(text, "  {name:<26} {times}")?;
    }
    Ok(())
}
