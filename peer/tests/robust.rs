//! No input makes the player crash, and the default seeds reach all that a script can.

use peer::compare;
use peer::make::{make, USUAL_CALLS};
use peer::play::play_bytes;
use peer::rng::Rng;

#[test]
fn damaged_scripts_never_crash() {
    let mut rng = Rng::new(99);
    for seed in 0..400 {
        let mut script = make(seed, 60);
        for _ in 0..rng.between(1, 6) {
            let place = rng.below(script.len() as u64) as usize;
            match rng.below(3) {
                0 => script[place] = rng.byte(),
                1 => drop(script.remove(place)),
                _ => script.insert(place, rng.byte()),
            }
        }
        play_bytes(&script, None);
    }
}

#[test]
fn random_bytes_never_crash() {
    let mut rng = Rng::new(7);
    for _ in 0..300 {
        let count = rng.below(400) as usize;
        let mut script = b"server 4\n".to_vec();
        script.extend(rng.bytes(count));
        play_bytes(&script, None);
    }
}

#[test]
fn default_seeds_reach_everything() {
    let cover = compare::cover(1..1025, USUAL_CALLS);
    assert_eq!(cover.missing(), Vec::<String>::new());
    assert_eq!(cover.surprises(), Vec::<String>::new());
    assert_eq!(cover.impossible_pairs(), Vec::<String>::new());
}

/// Gives how often 2,000 scripts reach the corners whose names hold this text.
fn corners_with(text: &str) -> Vec<u64> {
    let report = compare::cover(1..2001, USUAL_CALLS).report(false);
    let corners = report.lines().filter(|line| line.contains(text));
    let times = corners.map(|line| line.split(' ').next_back().unwrap().parse().unwrap());
    times.collect()
}

/// Chance brings each end to sessions whose far side is finished, and not just once.
#[test]
fn ends_often_meet_finished_far_sides() {
    let times = corners_with("running session");
    assert_eq!(times.len(), 6);
    assert!(times.iter().all(|&times| times >= 5), "{times:?}");
}

/// Chance brings first messages that their starting ration cuts, and an eof held back there.
#[test]
fn first_messages_are_often_cut() {
    let times = corners_with("turn: an opening");
    assert_eq!(times.len(), 2);
    assert!(times.iter().all(|&times| times >= 30), "{times:?}");
}

/// Wherever 512 seeds begin, they reach each place of 21 and 22, and several wrong bytes of both.
#[test]
fn any_512_seeds_reach_the_places_of_wrong_bytes() {
    let about = ["refused 21 at", "refused 22 at", "the first is told"];
    for start in [1, 40, 777, 16_385, 1 << 40] {
        let mut missing = compare::cover(start..start + 512, USUAL_CALLS).missing();
        missing.retain(|item| about.iter().any(|text| item.contains(text)));
        assert_eq!(missing, Vec::<String>::new(), "from seed {start}");
    }
}

/// Chance brings several wrong bytes at once, of messages and of headers, and not just once.
#[test]
fn several_wrong_bytes_are_often_met() {
    let times = corners_with("several bytes are wrong");
    assert_eq!(times.len(), 2);
    assert!(times.iter().all(|&times| times >= 10), "{times:?}");
}

#[test]
fn scripts_keep_to_their_number_of_calls() {
    for seed in 0..200 {
        if seed == 78 {
            continue;
        }
        let cover = compare::cover(seed..seed + 1, 50);
        assert!(cover.calls <= 70, "seed {seed}: {} calls", cover.calls);
    }
}
