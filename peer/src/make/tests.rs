use super::*;
use crate::far::Far;
use crate::pick::Mood;
use crate::session::{Outcome, Session};

#[test]
fn the_same_seed_gives_the_same_script() {
    for seed in 0..40 {
        assert_eq!(make(seed, 120), make(seed, 120));
    }
}

/// Two right ends never find a violation in each other's messages.
#[test]
fn joined_ends_agree() {
    let mut completed = 0;
    for seed in 0..300 {
        let mut maker = Maker::new(Rng::new(seed), Plan::Joined, 400);
        maker.taste.noise_from = u64::MAX;
        maker.taste.wild = 0;
        maker.begin();
        let header = choose_header(&mut maker.rng);
        let mut far = Far::new(maker.first.role.other(), header);
        while maker.more() {
            maker.joined_step(&mut far, Mood::Busy);
            assert!(!far.player.engine.over, "far end over, seed {seed}");
        }
        assert!(!maker.near.engine.over, "near end over, seed {seed}");
        let ends = [&maker.near.engine, &far.player.engine];
        let complete = |session: &&Session| session.outcome == Outcome::Complete;
        for engine in ends {
            completed += engine.sessions.iter().filter(complete).count();
        }
    }
    assert!(completed > 100, "only {completed} sessions were complete");
}
