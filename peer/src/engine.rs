//! One end of a connection: the calls of docs/PROTOCOL.md, their checks in order, their effects.

mod receive;

use crate::ration::Ration;
use crate::refusal;
use crate::session::{Ours, Outcome, Session, Starts, Theirs, SLOT};
use crate::wire::{self, Data, Message, Role, HEADER_LENGTH, LARGEST_ID};

/// The number of session numbers.
pub const NUMBERS: usize = 128;

/// The only right length of the queue.
pub const QUEUE_LENGTH: usize = NUMBERS * SLOT;

const RECEIVE_ROOM: usize = 12;
const MESSAGE_ROOM: usize = 4;

/// The room that turn asks for: that of a message with a full slot.
pub const TURN_ROOM: usize = MESSAGE_ROOM + SLOT;

/// How far the exchange of headers has come; `Up` holds the far header number.
#[derive(Clone, Copy, Debug, PartialEq, Eq)]
pub enum Phase {
    Fresh,
    Started,
    Up(u16),
}

/// What receive took.
#[derive(Clone, Copy, Debug, PartialEq, Eq)]
pub enum Taken {
    Header(u16),
    Message(Message, bool),
}

impl Taken {
    /// Gives the number of input bytes used.
    pub fn used(&self) -> usize {
        match self {
            Taken::Header(_) => HEADER_LENGTH,
            Taken::Message(message, _) => message.size(),
        }
    }
}

#[derive(Clone, Debug)]
pub struct Engine {
    pub role: Role,
    pub header: u16,
    pub phase: Phase,
    pub over: bool,
    pub last: u8,
    pub ping: Option<u16>,
    pub sessions: [Session; NUMBERS],
}

/// The checks that come before the work of the calls.
impl Engine {
    /// Refuses with 2 where the connection is over.
    fn check_over(&self) -> Result<(), u8> {
        if self.over {
            return Err(refusal::OVER);
        }
        Ok(())
    }

    /// Refuses with 2 or 1 where the connection does not run.
    fn check_running(&self) -> Result<(), u8> {
        self.check_over()?;
        match self.phase {
            Phase::Up(_) => Ok(()),
            _ => Err(refusal::NOT_UP),
        }
    }

    /// Refuses with 4 a call that belongs to the other role.
    fn check_role(&self, role: Role) -> Result<(), u8> {
        if self.role != role {
            return Err(refusal::ROLE);
        }
        Ok(())
    }
}

/// Refuses with 8 a room below what the call needs.
fn check_room(room: usize, need: usize) -> Result<(), u8> {
    if room < need {
        return Err(refusal::ROOM);
    }
    Ok(())
}

/// Refuses with 8 a queue of the wrong length.
fn check_queue(queue: &[u8]) -> Result<(), u8> {
    if queue.len() != QUEUE_LENGTH {
        return Err(refusal::ROOM);
    }
    Ok(())
}

/// Refuses with 3 a number above 127.
fn check_id(id: u8) -> Result<usize, u8> {
    if id > LARGEST_ID {
        return Err(refusal::NUMBER);
    }
    Ok(usize::from(id))
}

/// Refuses with 5 where the side is not as the call needs.
fn check_side(allowed: bool) -> Result<(), u8> {
    if !allowed {
        return Err(refusal::SIDE);
    }
    Ok(())
}

/// The local calls. Each appends the bytes it writes to `out`.
impl Engine {
    /// A connection just made.
    pub fn new(role: Role, header: u16) -> Engine {
        Engine {
            role,
            header,
            phase: Phase::Fresh,
            over: false,
            last: LARGEST_ID,
            ping: None,
            sessions: [Session::IDLE; NUMBERS],
        }
    }

    /// Sends a client's connection header.
    pub fn start(&mut self, room: usize, out: &mut Vec<u8>) -> Result<(), u8> {
        self.check_over()?;
        check_room(room, HEADER_LENGTH)?;
        self.check_role(Role::Client)?;
        check_side(self.phase == Phase::Fresh)?;
        self.phase = Phase::Started;
        out.extend_from_slice(&wire::write_header(self.header));
        Ok(())
    }

    /// Makes a number opening at a client; nothing is sent yet.
    pub fn open(&mut self, id: u8) -> Result<(), u8> {
        self.check_running()?;
        let id = check_id(id)?;
        self.check_role(Role::Client)?;
        check_side(self.sessions[id].may_open())?;
        self.sessions[id].open();
        Ok(())
    }

    /// Adds bytes to those that wait in the number's slot.
    pub fn put(&mut self, id: u8, bytes: &[u8], queue: &mut [u8]) -> Result<(), u8> {
        self.check_running()?;
        check_queue(queue)?;
        let id = check_id(id)?;
        let session = &mut self.sessions[id];
        check_side(session.may_put())?;
        if bytes.len() > SLOT - session.waiting {
            return Err(refusal::FULL);
        }
        let slot = &mut queue[id * SLOT..(id + 1) * SLOT];
        let end = session.waiting + bytes.len();
        slot[session.waiting..end].copy_from_slice(bytes);
        slot[end..].fill(0);
        session.waiting = end;
        Ok(())
    }

    /// Asks for the end of our data.
    pub fn finish(&mut self, id: u8) -> Result<(), u8> {
        self.check_running()?;
        let id = check_id(id)?;
        check_side(self.sessions[id].may_put())?;
        self.sessions[id].finish = true;
        Ok(())
    }

    /// Sends one Data message of the next ready number, and gives the number.
    pub fn turn(&mut self, queue: &mut [u8], room: usize, out: &mut Vec<u8>) -> Result<u8, u8> {
        self.check_running()?;
        check_room(room, TURN_ROOM)?;
        check_queue(queue)?;
        let id = self.next_ready().ok_or(refusal::NONE_READY)?;
        let slot = &mut queue[usize::from(id) * SLOT..(usize::from(id) + 1) * SLOT];
        let starts = self.starts();
        send_data(id, &mut self.sessions[usize::from(id)], starts, slot, out);
        self.last = id;
        Ok(id)
    }

    /// Gives the first ready number after the last one served, going round.
    fn next_ready(&self) -> Option<u8> {
        let after = usize::from(self.last) + 1;
        (after..after + NUMBERS)
            .map(|place| place % NUMBERS)
            .find(|&id| self.sessions[id].ready())
            .map(|id| id as u8)
    }

    /// Grants the far side more bytes.
    pub fn grant(&mut self, id: u8, amount: u32, room: usize, out: &mut Vec<u8>) -> Result<(), u8> {
        self.check_running()?;
        check_room(room, MESSAGE_ROOM)?;
        let number = check_id(id)?;
        let session = &mut self.sessions[number];
        check_side(session.may_grant())?;
        let increment = match u16::try_from(amount) {
            Ok(increment) if increment > 0 => increment,
            _ => return Err(refusal::VALUE),
        };
        session.inbound = match session.inbound {
            Ration::Endless => return Err(refusal::GRANT_SUM),
            finite => finite.grow(amount).ok_or(refusal::GRANT_SUM)?,
        };
        let message = Message::Increment {
            id,
            shift: 0,
            increment,
        };
        out.extend_from_slice(&message.start());
        Ok(())
    }

    /// Ends our side of a session by an Abort; an opening is only taken back.
    pub fn abort(
        &mut self,
        id: u8,
        partial: bool,
        room: usize,
        out: &mut Vec<u8>,
    ) -> Result<(), u8> {
        self.check_running()?;
        check_room(room, MESSAGE_ROOM)?;
        let number = check_id(id)?;
        if partial {
            self.check_role(Role::Server)?;
        }
        let session = &mut self.sessions[number];
        check_side(session.may_abort())?;
        if session.ours == Ours::Opening {
            session.take_back();
            return Ok(());
        }
        session.settle(Outcome::NoRetry);
        session.end_ours();
        let length = 0;
        let message = Message::Abort {
            id,
            partial,
            length,
        };
        out.extend_from_slice(&message.start());
        Ok(())
    }

    /// Closes a server's finished side.
    pub fn close(&mut self, id: u8, room: usize, out: &mut Vec<u8>) -> Result<(), u8> {
        self.check_running()?;
        check_room(room, MESSAGE_ROOM)?;
        let number = check_id(id)?;
        self.check_role(Role::Server)?;
        check_side(self.sessions[number].ours == Ours::Finished)?;
        self.sessions[number].ours = Ours::Ended;
        out.extend_from_slice(&Message::Close { id }.start());
        Ok(())
    }

    /// Sends a Ping if none is outstanding.
    pub fn ping(&mut self, cookie: u16, room: usize, out: &mut Vec<u8>) -> Result<(), u8> {
        self.check_running()?;
        check_room(room, MESSAGE_ROOM)?;
        if self.ping.is_some() {
            return Err(refusal::PING_OUT);
        }
        self.ping = Some(cookie);
        out.extend_from_slice(&Message::Ping { cookie }.start());
        Ok(())
    }

    /// Ends the connection from a server in a graceful fashion.
    pub fn shutdown(&mut self, room: usize, out: &mut Vec<u8>) -> Result<(), u8> {
        self.check_running()?;
        check_room(room, MESSAGE_ROOM)?;
        self.check_role(Role::Server)?;
        self.over = true;
        out.extend_from_slice(&Message::Shutdown { length: 0 }.start());
        Ok(())
    }

    /// Ends the connection because the line is lost.
    pub fn lost(&mut self) -> Result<(), u8> {
        self.check_over()?;
        self.lose_line();
        Ok(())
    }

    /// Gives the rations with which sessions begin here.
    fn starts(&self) -> Starts {
        let far = match self.phase {
            Phase::Up(far) => far,
            _ => 0,
        };
        Starts {
            outbound: Ration::from_header(far),
            inbound: Ration::from_header(self.header),
        }
    }

    /// Makes the connection over as a lost line does: what was sent must not be retried.
    fn lose_line(&mut self) {
        self.over = true;
        for session in &mut self.sessions {
            session.settle(match session.ours {
                Ours::Opening => Outcome::Retry,
                _ => Outcome::NoRetry,
            });
        }
    }

    /// Makes the connection over as an Error does: an answer that is all there counts as complete.
    fn stopped_by_far(&mut self) {
        for session in &mut self.sessions {
            if session.theirs == Theirs::Finished {
                session.settle(Outcome::Complete);
            }
        }
        self.lose_line();
    }

    /// Makes the connection over as a Shutdown does: all that runs may be retried.
    fn shut_by_far(&mut self) {
        self.over = true;
        for session in &mut self.sessions {
            session.settle(Outcome::Retry);
        }
    }
}

/// Sends one Data message from the slot: what waits, as far as the ration goes.
fn send_data(id: u8, session: &mut Session, starts: Starts, slot: &mut [u8], out: &mut Vec<u8>) {
    let open = session.ours == Ours::Opening;
    if open {
        session.begin(starts);
    }
    let length = session.outbound.at_most(session.waiting as u32);
    let count = length as usize;
    let rest = session.waiting - count;
    let eof = session.finish && rest == 0;
    let data = Data {
        id,
        open,
        eof,
        length: length as u16,
        ..Data::default()
    };
    out.extend_from_slice(&Message::Data(data).start());
    out.extend_from_slice(&slot[..count]);
    slot.copy_within(count..session.waiting, 0);
    slot[rest..].fill(0);
    session.waiting = rest;
    if let Some(left) = session.outbound.spend(length) {
        session.outbound = left;
    }
    if eof {
        session.ours = Ours::Finished;
        session.finish = false;
    }
}

#[cfg(test)]
mod tests;
