//! Makes random scripts: the same seed and number of calls always give the same script.
//!
//! A script plays one end, the near end. The maker runs that end itself to know what it wrote,
//! and either plays a whole far end with delay on the line, or feeds single messages by chance.

mod alone;
mod end;
mod joined;

use crate::engine::{Phase, NUMBERS, QUEUE_LENGTH};
use crate::noise::{self, Wrong, WRONGS};
use crate::pick;
use crate::play::{Player, Report};
use crate::refusal::Refusal;
use crate::rng::Rng;
use crate::script::{Call, First, LARGEST_QUEUE};
use crate::session::SLOT;
use crate::wire::{Message, Role};

/// The calls of a script where the command names no number.
pub const USUAL_CALLS: u64 = 200;

/// One of this many seeds plays the long grant run, whatever the number of calls.
const LONG_GRANT_EVERY: u64 = 2048;
const LONG_GRANT_SEED: u64 = 78;

/// One of this many seeds is about a first byte; 1,024 seeds in a row have all first bytes.
const FIRST_BYTE_EVERY: u64 = 4;
const FIRST_BYTE_SEED: u64 = 1;

/// One of this many seeds aims to end while a running session's far side is finished.
const ANSWERED_EVERY: u64 = 32;
const ANSWERED_SEED: u64 = 19;

/// One of this many seeds is about wrong bytes; 512 seeds in a row have each of `WRONGS`.
const WRONG_EVERY: u64 = 32;
const WRONG_SEED: u64 = 7;

/// Lengths of queues: none, around one slot, half of the right one, around the right one, the longest.
const QUEUES: [u32; 10] = [
    0,
    1,
    SLOT as u32 - 1,
    SLOT as u32,
    2 * SLOT as u32,
    QUEUE_LENGTH as u32 / 2,
    QUEUE_LENGTH as u32 - 1,
    QUEUE_LENGTH as u32,
    QUEUE_LENGTH as u32 + 1,
    LARGEST_QUEUE,
];

/// What a script is about.
#[derive(Clone, Copy, Debug, PartialEq, Eq)]
enum Plan {
    /// Two whole ends with bytes on their way between them.
    Joined,
    /// The near end alone, fed with single messages by chance.
    Walk,
    /// Calls and damage around the connection headers.
    Headers,
    /// A queue of the wrong length.
    WrongQueue,
    /// Grants until the inbound ration is full.
    LongGrant,
    /// A short walk, then a message with this first byte.
    FirstByte(u8),
    /// A walk of a client until the far side of a running session is finished, then an end.
    Answered,
    /// A header, or a message after a short walk, that is wrong at chosen places.
    Wrong(Wrong),
    /// Lines at the edge of the script language, and past it.
    Lines,
}

/// The random settings of a script.
struct Taste {
    /// From this call on, damaged input may come.
    noise_from: u64,
    /// How many of a hundred calls are made without a look at the state.
    wild: u64,
    /// How many of a hundred calls are followed by a `state` or `queue` line.
    looks: u64,
    /// How many of a hundred deliveries are cut.
    cuts: u64,
    /// How many of a hundred messages bring a ration near to the largest.
    brim: u64,
    /// Weights of near calls, far acts, deliveries to the near end and to the far end.
    tempo: [u32; 4],
}

struct Maker {
    rng: Rng,
    text: Vec<u8>,
    near: Player,
    first: First,
    pool: Vec<u8>,
    limit: u64,
    said: u64,
    taste: Taste,
}

/// Makes the script of a seed, of at most about that many calls.
pub fn make(seed: u64, calls: u64) -> Vec<u8> {
    let mut rng = Rng::new(seed);
    let plan = choose_plan(&mut rng, seed);
    let mut maker = Maker::new(rng, plan, calls);
    maker.begin();
    match plan {
        Plan::Joined => maker.joined(),
        Plan::Walk | Plan::WrongQueue => maker.walk(),
        Plan::Headers => maker.headers(),
        Plan::LongGrant => maker.long_grant(),
        Plan::FirstByte(first) => maker.first_byte(first),
        Plan::Answered => maker.answered(),
        Plan::Wrong(wrong) => maker.wrong_bytes(wrong),
        Plan::Lines => maker.odd_lines(),
    }
    maker.end();
    maker.text
}

/// Chooses what the script is about; every fourth seed is about the next first byte.
fn choose_plan(rng: &mut Rng, seed: u64) -> Plan {
    let plans = [
        Plan::Joined,
        Plan::Walk,
        Plan::Headers,
        Plan::WrongQueue,
        Plan::Lines,
    ];
    let plan = plans[rng.weighted(&[41, 38, 9, 4, 8])];
    if seed % LONG_GRANT_EVERY == LONG_GRANT_SEED {
        return Plan::LongGrant;
    }
    if seed % FIRST_BYTE_EVERY == FIRST_BYTE_SEED {
        return Plan::FirstByte((seed / FIRST_BYTE_EVERY % 256) as u8);
    }
    if seed % ANSWERED_EVERY == ANSWERED_SEED {
        return Plan::Answered;
    }
    if seed % WRONG_EVERY == WRONG_SEED {
        let next = seed / WRONG_EVERY % WRONGS.len() as u64;
        return Plan::Wrong(WRONGS[next as usize]);
    }
    plan
}

/// Chooses a header number: often one with a small or an endless ration.
fn choose_header(rng: &mut Rng) -> u16 {
    match rng.below(10) {
        0..=3 => 1,
        4 => rng.between(2, 4) as u16,
        5 | 6 => 0,
        7 => rng.one_of(&[255, 256, 65_535]),
        _ => rng.short(),
    }
}

/// Chooses a queue of a wrong length, and now and then the right one by name.
fn choose_queue(rng: &mut Rng) -> u32 {
    match rng.below(3) {
        0 => rng.below(u64::from(LARGEST_QUEUE) + 1) as u32,
        _ => rng.one_of(&QUEUES),
    }
}

/// Chooses a pool of numbers: mostly few, so that they meet often.
fn choose_pool(rng: &mut Rng) -> Vec<u8> {
    match rng.below(10) {
        0 => (0..NUMBERS as u8).collect(),
        1 => vec![rng.one_of(&[0, 127, 5])],
        2 => vec![0, 127],
        _ => {
            let count = rng.between(2, 5);
            (0..count).map(|_| rng.below(128) as u8).collect()
        }
    }
}

/// Chooses the random settings of the script.
fn choose_taste(rng: &mut Rng, limit: u64) -> Taste {
    let clean = rng.percent(45);
    Taste {
        noise_from: if clean {
            u64::MAX
        } else {
            rng.below(limit + 1)
        },
        wild: rng.one_of(&[0, 4, 12, 30]),
        looks: rng.one_of(&[4, 12, 30]),
        cuts: rng.one_of(&[0, 5, 15]),
        brim: rng.one_of(&[0, 0, 0, 8]),
        tempo: [0; 4].map(|_| rng.between(3, 12) as u32),
    }
}

impl Maker {
    fn new(mut rng: Rng, plan: Plan, calls: u64) -> Maker {
        let role = rng.one_of(&[Role::Client, Role::Server]);
        let header = choose_header(&mut rng);
        let queue = (plan == Plan::WrongQueue).then(|| choose_queue(&mut rng));
        let first = First {
            role,
            header,
            queue,
        };
        let limit = match rng.below(3) {
            0 => 1 + rng.below(calls),
            _ => calls,
        };
        let mut taste = choose_taste(&mut rng, limit);
        if plan == Plan::WrongQueue {
            taste.wild = 40;
        }
        Maker {
            near: Player::new(&first),
            pool: choose_pool(&mut rng),
            taste,
            rng,
            text: Vec::new(),
            first,
            limit,
            said: 0,
        }
    }

    /// Writes the first line, at times after lines that are skipped.
    fn begin(&mut self) {
        while self.rng.percent(10) {
            self.skipped_line();
        }
        let mut line = Vec::new();
        self.first.write(&mut line);
        self.raw_line(&line);
    }

    /// Begins the script anew, with the first line as it is set.
    fn begin_again(&mut self) {
        self.text.clear();
        self.near = Player::new(&self.first);
        self.begin();
    }

    /// Adds a line as it is.
    fn raw_line(&mut self, line: &[u8]) {
        self.text.extend_from_slice(line);
        self.text.push(b'\n');
    }

    /// Adds a line that is skipped: empty, or a comment with any bytes in it.
    fn skipped_line(&mut self) {
        let mut line = Vec::new();
        if self.rng.percent(60) {
            line.push(b'#');
            let count = self.rng.below(20) as usize;
            line.extend(self.rng.bytes(count));
            line.retain(|&byte| byte != b'\n');
        }
        self.raw_line(&line);
    }

    /// Writes a call's line, runs it on the near end, and looks at times.
    fn say(&mut self, call: &Call) -> Result<Report, Refusal> {
        let answer = self.say_only(call);
        if self.rng.percent(self.taste.looks) {
            self.look(call);
        }
        answer
    }

    /// Writes a call's line and runs it on the near end.
    fn say_only(&mut self, call: &Call) -> Result<Report, Refusal> {
        call.write(&mut self.text);
        self.text.push(b'\n');
        if call.is_engine_call() {
            self.said += 1;
        }
        self.near.run(call)
    }

    /// Adds a `state` line, or a `queue` line of the number that was just served.
    fn look(&mut self, call: &Call) {
        let id = match call {
            Call::Turn { .. } => Some(self.near.engine.last),
            call => call.id(),
        };
        let look = match id {
            Some(id) if self.rng.percent(35) => Call::Queue { id },
            _ if self.rng.percent(4) => Call::Queue {
                id: self.rng.byte(),
            },
            _ => Call::State,
        };
        look.write(&mut self.text);
        self.text.push(b'\n');
    }

    /// Tells whether more calls are wanted and the near end still runs.
    fn more(&self) -> bool {
        self.said < self.limit && !self.near.engine.over
    }

    /// Tells whether damaged input is due now.
    fn noise_due(&mut self) -> bool {
        self.said >= self.taste.noise_from && self.rng.percent(20)
    }

    /// Makes a call without a look at the state.
    fn wild(&mut self) {
        let call = pick::wild_call(&mut self.rng, &self.pool, false);
        // Its bytes go nowhere but to the far end, which the joined plan sees to.
        let _ = self.say(&call);
    }

    /// Gives bytes to the near end, with a room that fits or not.
    fn receive(&mut self, bytes: Vec<u8>) -> Result<Report, Refusal> {
        let headers = match self.near.engine.phase {
            Phase::Up(_) => 0,
            _ => 35,
        };
        let room = if self.rng.percent(self.taste.wild + headers) {
            pick::room(&mut self.rng)
        } else {
            None
        };
        self.say(&Call::Receive { bytes, room })
    }

    /// Gives damaged input to the near end.
    fn noise(&mut self) {
        let bytes = match self.near.engine.phase {
            Phase::Up(_) if self.rng.percent(10) => return self.past_the_brim(),
            Phase::Up(_) if self.rng.percent(5) => return self.wrong_cookie(),
            Phase::Up(_) => noise::bad_message(&mut self.rng, &self.near.engine, &self.pool),
            _ => noise::bad_header(&mut self.rng),
        };
        let _ = self.receive(bytes);
    }

    /// Pings and answers with another cookie.
    fn wrong_cookie(&mut self) {
        let cookie = self.rng.short();
        let _ = self.say(&Call::Ping { cookie, room: None });
        let outstanding = self.near.engine.ping.unwrap_or(cookie);
        let cookie = outstanding ^ (1 << self.rng.below(16));
        let _ = self.receive(Message::PingAck { cookie }.start().to_vec());
    }

    /// Fills an outbound ration to its largest, and at times one more.
    fn past_the_brim(&mut self) {
        let engine = &self.near.engine;
        let open = |id: &&u8| pick::brim_increment(engine, **id).is_some();
        let Some(&id) = self.pool.iter().find(open) else {
            return;
        };
        for _ in 0..3 {
            if let Some(message) = pick::brim_increment(&self.near.engine, id) {
                let _ = self.receive(message.start().to_vec());
            }
        }
        if self.rng.percent(80) {
            let shift = self.rng.one_of(&[0, 0, 0, 3, 7]);
            let _ = self.receive(vec![0x10 | (shift << 1), id, 0, 1]);
        }
    }
}

#[cfg(test)]
mod tests;
