//! The receive call: one header or message.

use super::{check_room, Engine, Phase, Taken, RECEIVE_ROOM};
use crate::refusal::{self, Refusal, Violation};
use crate::session::{Ours, Session, Theirs};
use crate::wire::{self, Message, Role};

impl Engine {
    /// Takes the header or message that begins the input; at most 12 bytes are written.
    pub fn receive(
        &mut self,
        input: &[u8],
        room: usize,
        out: &mut Vec<u8>,
    ) -> Result<Taken, Refusal> {
        self.check_over()?;
        if self.role == Role::Client && self.phase == Phase::Fresh {
            return Err(refusal::NOT_UP.into());
        }
        check_room(room, RECEIVE_ROOM)?;
        let answer = match self.phase {
            Phase::Up(_) => self.receive_message(input, out),
            _ => self.receive_header(input, out),
        };
        if let Err(Refusal::Violation(_)) = answer {
            self.lose_line();
            out.extend_from_slice(&Message::Error { length: 0 }.start());
        }
        answer
    }

    /// Takes the far header; a server answers even a bad one with its own.
    fn receive_header(&mut self, input: &[u8], out: &mut Vec<u8>) -> Result<Taken, Refusal> {
        let answer = wire::read_header(input);
        if self.role == Role::Server && answer != Err(refusal::INCOMPLETE.into()) {
            out.extend_from_slice(&wire::write_header(self.header));
        }
        let far = answer?;
        self.phase = Phase::Up(far);
        Ok(Taken::Header(far))
    }

    /// Takes one message.
    fn receive_message(&mut self, input: &[u8], out: &mut Vec<u8>) -> Result<Taken, Refusal> {
        let message = Message::read(input, self.role.other())?;
        let late = match message.id() {
            Some(id) => self.take_for_session(id, &message, out)?,
            None => {
                self.take_for_connection(&message, out)?;
                false
            }
        };
        Ok(Taken::Message(message, late))
    }

    /// Takes a session's message, answers by an Abort where one is owed, tells whether it was late.
    fn take_for_session(
        &mut self,
        id: u8,
        message: &Message,
        out: &mut Vec<u8>,
    ) -> Result<bool, Violation> {
        let starts = self.starts();
        let role = self.role;
        let session = &mut self.sessions[usize::from(id)];
        let effect = session.take(role, message, starts)?;
        if effect.reply_abort {
            session.end_ours();
            let reply = Message::Abort {
                id,
                partial: role == Role::Server,
                length: 0,
            };
            out.extend_from_slice(&reply.start());
        }
        Ok(effect.late)
    }

    /// Takes a message of the connection as a whole.
    fn take_for_connection(
        &mut self,
        message: &Message,
        out: &mut Vec<u8>,
    ) -> Result<(), Violation> {
        match *message {
            Message::Ping { cookie } => {
                out.extend_from_slice(&Message::PingAck { cookie }.start());
            }
            Message::PingAck { cookie } => {
                if self.ping != Some(cookie) {
                    return Err(Violation::PINGACK);
                }
                self.ping = None;
            }
            Message::Shutdown { .. } => self.shut_by_far(),
            Message::Error { .. } => self.stopped_by_far(),
            _ => {}
        }
        Ok(())
    }

    /// Tells whether a number's `in` ration counts: ours can still read, theirs still sends.
    pub fn inbound_counts(session: &Session) -> bool {
        matches!(session.ours, Ours::Open | Ours::Finished) && session.theirs == Theirs::Open
    }
}
