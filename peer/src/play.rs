//! Plays a script on one end of a connection and prints docs/SCRIPTS.md's lines.

use crate::cover::Cover;
use crate::engine::{Engine, Phase, Taken, QUEUE_LENGTH};
use crate::refusal::Refusal;
use crate::script::{self, Call, First, Line, Lines, Room, USUAL_ROOM};
use crate::session::{Ours, Outcome, Session, SLOT};
use std::io::{self, BufRead, Write};

/// What a call reports where it is not refused.
#[derive(Clone, Copy, Debug, PartialEq, Eq)]
pub enum Report {
    Nothing,
    Turn(u8),
    Taken(Taken),
}

/// One end with its queue; it runs calls and keeps the bytes that the last one wrote.
pub struct Player {
    pub engine: Engine,
    pub queue: Vec<u8>,
    pub written: Vec<u8>,
}

/// Gives a room as the engine takes it.
fn room_of(room: Room) -> usize {
    room.unwrap_or(USUAL_ROOM) as usize
}

impl Player {
    /// A connection just made, its queue filled with DD hex.
    pub fn new(first: &First) -> Player {
        let length = first.queue.map_or(QUEUE_LENGTH, |length| length as usize);
        Player {
            engine: Engine::new(first.role, first.header),
            queue: vec![0xDD; length],
            written: Vec::new(),
        }
    }

    /// Runs a call on the engine; `state` and `queue` change and report nothing.
    pub fn run(&mut self, call: &Call) -> Result<Report, Refusal> {
        self.written.clear();
        let engine = &mut self.engine;
        let out = &mut self.written;
        match *call {
            Call::Start { room } => engine.start(room_of(room), out)?,
            Call::Open { id } => engine.open(id)?,
            Call::Put { id, ref bytes } => engine.put(id, bytes, &mut self.queue)?,
            Call::Finish { id } => engine.finish(id)?,
            Call::Turn { room } => {
                let id = engine.turn(&mut self.queue, room_of(room), out)?;
                return Ok(Report::Turn(id));
            }
            Call::Grant { id, amount, room } => engine.grant(id, amount, room_of(room), out)?,
            Call::Abort { id, partial, room } => engine.abort(id, partial, room_of(room), out)?,
            Call::Close { id, room } => engine.close(id, room_of(room), out)?,
            Call::Ping { cookie, room } => engine.ping(cookie, room_of(room), out)?,
            Call::Shutdown { room } => engine.shutdown(room_of(room), out)?,
            Call::Lost => engine.lost()?,
            Call::Receive { ref bytes, room } => {
                let taken = engine.receive(bytes, room_of(room), out)?;
                return Ok(Report::Taken(taken));
            }
            Call::State | Call::Queue { .. } => {}
        }
        Ok(Report::Nothing)
    }

    /// Prints the line or lines of a call that was just run.
    pub fn print(&self, call: &Call, answer: &Result<Report, Refusal>, text: &mut Vec<u8>) {
        let printed = match call {
            Call::State => self.print_state(text),
            Call::Queue { id } => self.print_queue(*id, text),
            _ => self.print_answer(call, answer, text),
        };
        printed.expect("writing to memory does not fail");
    }

    /// Prints the line of an engine call.
    fn print_answer(
        &self,
        call: &Call,
        answer: &Result<Report, Refusal>,
        text: &mut Vec<u8>,
    ) -> io::Result<()> {
        text.extend_from_slice(call.word().as_bytes());
        match answer {
            Err(refusal) => write!(text, " refused {refusal}")?,
            Ok(Report::Nothing) => text.extend_from_slice(b" ok"),
            Ok(Report::Turn(id)) => write!(text, " ok id {id}")?,
            Ok(Report::Taken(taken)) => print_taken(taken, text)?,
        }
        if !self.written.is_empty() {
            text.extend_from_slice(b" wrote ");
            script::add_hex(text, &self.written);
        }
        text.push(b'\n');
        Ok(())
    }

    /// Prints the connection's line and the lines of the numbers in use or with an outcome.
    fn print_state(&self, text: &mut Vec<u8>) -> io::Result<()> {
        let engine = &self.engine;
        write!(text, "connection {}", engine.role.word())?;
        match engine.phase {
            Phase::Fresh => text.extend_from_slice(b" fresh"),
            Phase::Started => text.extend_from_slice(b" started"),
            Phase::Up(far) => write!(text, " up {far}")?,
        }
        if engine.over {
            text.extend_from_slice(b" over");
        }
        write!(text, " last {} ping ", engine.last)?;
        match engine.ping {
            None => text.extend_from_slice(b"none\n"),
            Some(cookie) => writeln!(text, "{cookie}")?,
        }
        for (id, session) in engine.sessions.iter().enumerate() {
            if session.ours != Ours::Idle || session.outcome != Outcome::None {
                print_session(id, session, text)?;
            }
        }
        Ok(())
    }

    /// Prints the slot of a number, or `none`.
    fn print_queue(&self, id: u8, text: &mut Vec<u8>) -> io::Result<()> {
        let start = usize::from(id) * SLOT;
        text.extend_from_slice(b"queue ");
        match self.queue.get(start..start + SLOT) {
            Some(slot) if id < 128 => script::add_hex(text, slot),
            _ => text.extend_from_slice(b"none"),
        }
        text.push(b'\n');
        Ok(())
    }
}

/// Prints what receive took.
fn print_taken(taken: &Taken, text: &mut Vec<u8>) -> io::Result<()> {
    match taken {
        Taken::Header(far) => write!(text, " ok header {far}")?,
        Taken::Message(message, late) => {
            let late = if *late { " late" } else { "" };
            write!(text, " ok {message}{late}")?;
        }
    }
    write!(text, " used {}", taken.used())
}

/// Prints the line of one session number.
fn print_session(id: usize, session: &Session, text: &mut Vec<u8>) -> io::Result<()> {
    let (ours, theirs) = (session.ours.word(), session.theirs.word());
    let outcome = session.outcome.word();
    write!(text, "session {id} {ours} {theirs} outcome {outcome}")?;
    if session.ours == Ours::Open {
        write!(text, " out {}", session.outbound)?;
    }
    if Engine::inbound_counts(session) {
        write!(text, " in {}", session.inbound)?;
    }
    if matches!(session.ours, Ours::Opening | Ours::Open) {
        write!(text, " waiting {}", session.waiting)?;
        if session.finish {
            text.extend_from_slice(b" finish");
        }
    }
    text.push(b'\n');
    Ok(())
}

/// How much text is gathered before it is written out.
const GATHERED: usize = 1 << 16;

/// Plays a whole script from `input` to `output`; counts what it reaches in `cover`.
pub fn play<R: BufRead, W: Write>(
    input: R,
    output: W,
    mut cover: Option<&mut Cover>,
) -> io::Result<()> {
    let mut player: Option<Player> = None;
    let good = play_lines(input, output, &mut |line, text| {
        play_line(&mut player, line, text, &mut cover)
    })?;
    if let (false, Some(cover)) = (good, cover) {
        cover.script_error();
    }
    Ok(())
}

/// Plays lines one by one by `play_line`, which adds what a line prints and tells whether it is one of the language.
///
/// The first line that is not ends the run with `script error at line N`; gives whether there was none.
pub(crate) fn play_lines<R: BufRead, W: Write>(
    input: R,
    mut output: W,
    play_line: &mut dyn FnMut(&[u8], &mut Vec<u8>) -> bool,
) -> io::Result<bool> {
    let mut lines = Lines::new(input);
    let mut text = Vec::new();
    let mut good = true;
    while good {
        let Some(line) = lines.next_line()? else {
            break;
        };
        good = match line {
            Line::Skipped => true,
            Line::TooLong => false,
            Line::Text(line) => play_line(line, &mut text),
        };
        if !good {
            writeln!(text, "script error at line {}", lines.number)?;
        }
        if text.len() >= GATHERED {
            output.write_all(&text)?;
            text.clear();
        }
    }
    output.write_all(&text)?;
    output.flush()?;
    Ok(good)
}

/// Plays one line that is not skipped; tells whether it was one of the script language.
fn play_line(
    player: &mut Option<Player>,
    line: &[u8],
    text: &mut Vec<u8>,
    cover: &mut Option<&mut Cover>,
) -> bool {
    let Some(player) = player else {
        *player = script::read_first(line).map(|first| Player::new(&first));
        return player.is_some();
    };
    let Some(call) = script::read_call(line) else {
        return false;
    };
    match cover {
        Some(cover) => {
            let before = cover.before(player, &call);
            let answer = player.run(&call);
            player.print(&call, &answer, text);
            cover.after(player, &call, before, &answer);
        }
        None => {
            let answer = player.run(&call);
            player.print(&call, &answer, text);
        }
    }
    true
}

/// Plays a script in memory and gives the text that it prints.
pub fn play_bytes(script: &[u8], cover: Option<&mut Cover>) -> Vec<u8> {
    let mut text = Vec::new();
    play(script, &mut text, cover).expect("reading and writing memory does not fail");
    text
}
