//! The messages of a capture, and what a reader answers about a place in one.

/// Which end sent the bytes.
#[derive(Clone, Copy, PartialEq, Eq, Debug)]
pub enum Sender {
    Client,
    Server,
}

#[derive(Clone, Copy, PartialEq, Eq, Debug)]
pub enum Message {
    NoOperation {
        length: u16,
    },
    Shutdown {
        length: u16,
    },
    Ping {
        cookie: u16,
    },
    PingAck {
        cookie: u16,
    },
    Error {
        length: u16,
    },
    IncrementRation {
        shift: u8,
        session: u8,
        increment: u16,
    },
    Abort {
        partial: bool,
        session: u8,
        length: u16,
    },
    Close {
        session: u8,
    },
    Acknowledgment {
        session: u8,
    },
    Data {
        open: bool,
        close: bool,
        eof: bool,
        ack_required: bool,
        session: u8,
        length: u16,
    },
}

/// Why there is no message: the number, and for 20, 21, 23 and 24 the place of the byte at fault in the message.
#[derive(Clone, Copy, PartialEq, Eq, Debug)]
pub struct Refused {
    pub number: u8,
    pub place: u8,
}

/// A message and the place after it, or why there is none.
pub type Step = Result<(Message, usize), Refused>;

/// A type by its number, its flags or shift, its session, and its length, cookie or increment.
#[derive(Clone, Copy, PartialEq, Eq, Debug)]
pub struct Items {
    pub kind: u64,
    pub flags: u64,
    pub session: u64,
    pub value: u64,
}

/// What reading all messages of a capture comes to; docs/CAPTURES.md says what each word is.
#[derive(Clone, Copy, PartialEq, Eq, Debug)]
pub struct Tally {
    pub number: u64,
    pub fault: u64,
    pub place: u64,
    pub messages: u64,
    pub sum: u64,
}

/// The place of the first message, behind the connection header.
pub const FIRST_PLACE: usize = 8;

impl Message {
    /// How many bytes follow the header.
    #[inline(always)]
    pub fn body(self) -> usize {
        match self {
            Message::NoOperation { length }
            | Message::Shutdown { length }
            | Message::Error { length }
            | Message::Abort { length, .. }
            | Message::Data { length, .. } => length.into(),
            _ => 0,
        }
    }

    #[inline(always)]
    pub fn items(self) -> Items {
        let items = |kind, flags, session: u8, value: u16| Items {
            kind,
            flags,
            session: session.into(),
            value: value.into(),
        };
        match self {
            Message::NoOperation { length } => items(1, 0, 0, length),
            Message::Shutdown { length } => items(2, 0, 0, length),
            Message::Ping { cookie } => items(3, 0, 0, cookie),
            Message::PingAck { cookie } => items(4, 0, 0, cookie),
            Message::Error { length } => items(5, 0, 0, length),
            Message::IncrementRation {
                shift,
                session,
                increment,
            } => items(6, shift.into(), session, increment),
            Message::Abort {
                partial,
                session,
                length,
            } => items(7, partial.into(), session, length),
            Message::Close { session } => items(8, 0, session, 0),
            Message::Acknowledgment { session } => items(9, 0, session, 0),
            Message::Data {
                open,
                close,
                eof,
                ack_required,
                session,
                length,
            } => {
                let flags = u64::from(open)
                    + 2 * u64::from(close)
                    + 4 * u64::from(eof)
                    + 8 * u64::from(ack_required);
                items(10, flags, session, length)
            }
        }
    }
}

impl Items {
    /// The items in one number, which no other message has.
    #[inline(always)]
    pub fn packed(self) -> u64 {
        self.kind + 16 * self.flags + 256 * self.session + 65_536 * self.value
    }
}
