use super::*;
use crate::refusal::Violation;

/// The ways in which a client's connection comes to its end.
#[derive(Clone, Copy, Debug)]
enum End {
    Error,
    Shutdown,
    Violation,
    Lost,
}

const ENDS: [End; 4] = [End::Error, End::Shutdown, End::Violation, End::Lost];

/// Every pair of sides that a client's number can have while a session of it is in use.
const PAIRS: [(Ours, Theirs); 9] = [
    (Ours::Opening, Theirs::None),
    (Ours::Open, Theirs::Open),
    (Ours::Open, Theirs::Finished),
    (Ours::Finished, Theirs::Open),
    (Ours::Finished, Theirs::Finished),
    (Ours::Finished, Theirs::Ended),
    (Ours::Ended, Theirs::Open),
    (Ours::Ended, Theirs::Finished),
    (Ours::Ended, Theirs::Ended),
];

/// Gives a number with these sides and this fate.
fn number((ours, theirs): (Ours, Theirs), outcome: Outcome) -> Session {
    Session {
        ours,
        theirs,
        outcome,
        ..Session::IDLE
    }
}

/// Gives an end whose headers are exchanged and whose numbers from 0 on are these.
fn running(role: Role, numbers: &[Session]) -> Engine {
    let mut engine = Engine::new(role, 4);
    engine.phase = Phase::Up(4);
    engine.sessions[..numbers.len()].copy_from_slice(numbers);
    engine
}

/// Ends the connection, and gives what was written.
fn meet(engine: &mut Engine, end: End) -> Vec<u8> {
    let mut out = Vec::new();
    let taken = match end {
        End::Error => engine.receive(&[8, 0, 0, 0], 12, &mut out).is_ok(),
        End::Shutdown => engine.receive(&[2, 0, 0, 0], 12, &mut out).is_ok(),
        End::Violation => {
            let answer = engine.receive(&[1, 0, 0, 0], 12, &mut out);
            answer == Err(Violation::FIRST_BYTE.into())
        }
        End::Lost => engine.lost().is_ok(),
    };
    assert!(taken && engine.over, "{end:?}");
    out
}

/// Gives the fate of a client's number with these sides and this fate after the end.
fn fate(pair: (Ours, Theirs), outcome: Outcome, end: End) -> Outcome {
    let mut engine = running(Role::Client, &[number(pair, outcome)]);
    meet(&mut engine, end);
    engine.sessions[0].outcome
}

/// A session with its far side finished is complete after an Error, and after no other end.
#[test]
fn running_fates_by_sides_and_end() {
    use Outcome::{Complete, NoRetry, Retry};
    for (ours, theirs, wanted) in [
        (Ours::Opening, Theirs::None, [Retry, Retry, Retry, Retry]),
        (Ours::Open, Theirs::Open, [NoRetry, Retry, NoRetry, NoRetry]),
        (
            Ours::Open,
            Theirs::Finished,
            [Complete, Retry, NoRetry, NoRetry],
        ),
        (
            Ours::Finished,
            Theirs::Open,
            [NoRetry, Retry, NoRetry, NoRetry],
        ),
        (
            Ours::Finished,
            Theirs::Finished,
            [Complete, Retry, NoRetry, NoRetry],
        ),
    ] {
        let fates = ENDS.map(|end| fate((ours, theirs), Outcome::Running, end));
        assert_eq!(fates, wanted, "{ours:?} {theirs:?}");
    }
}

/// A fate that is not running stays, whatever the sides and the end.
#[test]
fn other_fates_stay() {
    let settled = [Outcome::Complete, Outcome::Retry, Outcome::NoRetry];
    for pair in PAIRS {
        for outcome in settled {
            let fates = ENDS.map(|end| fate(pair, outcome, end));
            assert_eq!(fates, [outcome; 4], "{pair:?}");
        }
    }
    let idle = Session::IDLE.pair();
    let fates = ENDS.map(|end| fate(idle, Outcome::None, end));
    assert_eq!(fates, [Outcome::None; 4]);
}

/// An opening of a number that was answered before is still an opening.
#[test]
fn the_sides_before_an_open_do_not_count() {
    for before in [
        (Ours::Finished, Theirs::Ended),
        (Ours::Ended, Theirs::Ended),
    ] {
        let mut session = number(before, Outcome::Complete);
        session.open();
        let mut engine = running(Role::Client, &[session]);
        meet(&mut engine, End::Error);
        assert_eq!(engine.sessions[0].outcome, Outcome::Retry);
    }
}

/// One Error gives each number the fate that belongs to its own sides.
#[test]
fn numbers_do_not_share_a_fate() {
    let numbers = PAIRS[..5]
        .iter()
        .map(|&pair| number(pair, Outcome::Running));
    let mut engine = running(Role::Client, &numbers.collect::<Vec<_>>());
    meet(&mut engine, End::Error);
    let fates = engine.sessions.map(|session| session.outcome);
    let wanted = [
        Outcome::Retry,
        Outcome::NoRetry,
        Outcome::Complete,
        Outcome::NoRetry,
        Outcome::Complete,
        Outcome::None,
    ];
    assert_eq!(fates[..6], wanted);
}

/// An Error writes nothing, and leaves the sides, the rations and what waits as they are.
#[test]
fn an_error_changes_fates_alone() {
    let answered = Session {
        outbound: Ration::Finite(7),
        inbound: Ration::Finite(9),
        waiting: 8,
        finish: true,
        ..number((Ours::Open, Theirs::Finished), Outcome::Running)
    };
    let mut engine = running(Role::Client, &[answered]);
    engine.ping = Some(3);
    assert_eq!(meet(&mut engine, End::Error), []);
    let session = engine.sessions[0];
    assert_eq!(session.pair(), answered.pair());
    assert_eq!(session.outbound, answered.outbound);
    assert_eq!(session.inbound, answered.inbound);
    assert_eq!((session.waiting, session.finish), (8, true));
    assert_eq!((engine.ping, engine.last), (Some(3), LARGEST_ID));
}

/// A server has no fates, so no end gives it one.
#[test]
fn servers_have_no_fates() {
    let pairs = PAIRS.iter().filter(|(ours, _)| *ours != Ours::Opening);
    for &pair in pairs {
        for end in [End::Error, End::Violation, End::Lost] {
            let mut engine = running(Role::Server, &[number(pair, Outcome::None)]);
            meet(&mut engine, end);
            assert_eq!(engine.sessions[0].outcome, Outcome::None, "{end:?}");
        }
    }
}
