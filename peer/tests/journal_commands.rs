//! The journal's commands, run as a user runs them, and what its random scripts reach.

#[path = "common/command.rs"]
mod common;

use common::{peer, program, text, PEER};
use peer::journal::compare;
use peer::journal::make::make;
use peer::journal::play::play_bytes;
use peer::rng::Rng;

#[test]
fn journal_plays_a_script() {
    let script = b"region 512\nstore 5 0\nread\nlist\nstore 5 1\nnothing\nread\n";
    let output = peer(&["journal"], script);
    let wanted = "store ok serial 1\nread ok 1\nentry 1 id 5 kind 0\nlist ok 1\n\
        store refused 16\nscript error at line 6\n";
    assert_eq!(text(&output.stdout), wanted);
    assert!(output.status.success());
}

#[test]
fn journal_make_prints_the_script_of_a_seed() {
    for seed in ["0", "77", "18446744073709551615"] {
        let script = peer(&["journal-make", "--seed", seed], b"").stdout;
        assert_eq!(script, make(seed.parse().unwrap()));
    }
}

#[test]
fn journal_cuts_prints_histories() {
    let output = peer(&["journal-cuts", "--cut", "17", "--history", "1"], b"");
    let wanted = "# the first store, cut after 17 byte stores\nregion 1024\nstore 5 0 17\nread\n\
        list\nblock 1\nstore 9 0\nread\nlist\n";
    assert_eq!(text(&output.stdout), wanted);
    let output = peer(&["journal-cuts", "--cut", "511"], b"");
    let printed = text(&output.stdout);
    assert_eq!(printed.matches("cut after 511 byte stores\n").count(), 10);
    assert!(printed.contains("\nstore 7 0 511\n") && printed.contains("\nrepair 511\n"));
    let output = peer(&["journal-cuts"], b"");
    assert_eq!(text(&output.stdout).matches("\nregion ").count(), 10 * 513);
}

#[test]
fn journal_compare_finds_no_difference_with_itself() {
    let same = program("journal-same.sh", "journal", "");
    let arguments = ["journal-compare", "--program", &same, "--seeds", "1..60"];
    let output = peer(&arguments, b"");
    let report = text(&output.stdout);
    assert!(report.contains("Compared 59 scripts, "), "{report}");
    assert!(report.contains("Result: no difference."), "{report}");
    assert_eq!(output.status.code(), Some(0));
}

#[test]
fn journal_compare_shrinks_a_script_that_differs() {
    let other = program(
        "journal-other.sh",
        "journal",
        "| sed 's/^store refused 12/store ok serial 1/'",
    );
    let arguments = ["journal-compare", "--program", &other, "--seeds", "1..60"];
    let output = peer(&arguments, b"");
    let report = text(&output.stdout);
    assert!(report.contains("Result: 1 script differs."), "{report}");
    assert!(report.contains("peer:    store refused 12\nprogram: store ok serial 1\n"));
    let shrunk = report.split("---- script\n").nth(1).unwrap();
    let shrunk = shrunk.split("---- end").next().unwrap();
    assert!(shrunk.lines().count() <= 3, "{shrunk}");
    assert_eq!(output.status.code(), Some(1));
}

#[test]
fn journal_compare_finds_a_difference_at_one_cut() {
    let other = program(
        "journal-cut.sh",
        "journal",
        "| sed 's/^store cut 3$/store cut 4/'",
    );
    let arguments = ["journal-compare", "--program", &other, "--cuts"];
    let output = peer(&arguments, b"");
    let report = text(&output.stdout);
    let title = "History 1, cut after 3 byte stores: the outputs differ.";
    assert!(report.contains(title), "{report}");
    assert_eq!(output.status.code(), Some(1));
}

#[test]
fn wrong_arguments_are_told() {
    for (arguments, told) in [
        (&["journal", "file"][..], "not known"),
        (&["journal-make"][..], "--seed"),
        (&["journal-cuts", "--cut", "513"][..], "0 to 512"),
        (&["journal-cuts", "--history", "0"][..], "1 to 10"),
        (&["journal-compare", "--cuts"][..], "--program"),
        (
            &["journal-compare", "--program", PEER][..],
            "--seeds A..B or --cuts",
        ),
        (
            &["journal-compare", "--program", "/no/such", "--cuts"][..],
            "no program at",
        ),
    ] {
        let output = peer(arguments, b"");
        assert!(text(&output.stderr).contains(told), "{arguments:?}");
        assert_eq!(output.status.code(), Some(2), "{arguments:?}");
    }
}

#[test]
fn help_names_the_commands() {
    let help = text(&peer(&["--help"], b"").stdout);
    for command in [
        "journal <",
        "journal-make",
        "journal-cuts",
        "journal-compare",
    ] {
        assert!(help.contains(&format!("\npeer {command}")), "{command}");
    }
}

/// Wherever 1,024 seeds begin, they reach all that a script can reach.
#[test]
fn any_1024_seeds_reach_everything() {
    for start in [0, 1, 500, 16_385, 1 << 40] {
        let cover = compare::cover(start..start + compare::ENOUGH_SEEDS);
        assert_eq!(cover.missing(), Vec::<String>::new(), "from seed {start}");
    }
}

#[test]
fn damaged_scripts_never_crash() {
    let mut rng = Rng::new(99);
    for seed in 0..400 {
        let mut script = make(seed);
        for _ in 0..rng.between(1, 6) {
            let place = rng.below(script.len() as u64 + 1) as usize;
            match rng.below(3) {
                0 if place < script.len() => script[place] = rng.byte(),
                1 if place < script.len() => drop(script.remove(place)),
                _ => script.insert(place, rng.byte()),
            }
        }
        play_bytes(&script, None);
    }
}
