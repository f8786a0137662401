//! The commands, run as a user runs them.

#[path = "common/command.rs"]
mod common;

use common::{peer, program, text};

#[test]
fn play_prints_the_example_of_the_paper() {
    let script = b"client 4\nstart\nreceive 4a6d757801000400\nopen 5\nopen 2\nput 5 616263\n\
        finish 5\nturn\nturn\nturn\nstate\n";
    let wanted = "start ok wrote 4a6d757801000400\nreceive ok header 4 used 8\nopen ok\nopen ok\n\
        put ok\nfinish ok\nturn ok id 2 wrote 90020000\nturn ok id 5 wrote 94050003616263\n\
        turn refused 9\nconnection client up 4 last 5 ping none\n\
        session 2 open open outcome running out 1024 in 1024 waiting 0\n\
        session 5 finished open outcome running in 1024\n";
    let output = peer(&["play"], script);
    assert_eq!(text(&output.stdout), wanted);
    assert!(output.status.success());
}

#[test]
fn make_prints_a_script_that_plays() {
    let script = peer(&["make", "--seed", "4", "--calls", "30"], b"").stdout;
    assert_eq!(
        script,
        peer(&["make", "--seed", "4", "--calls", "30"], b"").stdout
    );
    assert!(!peer(&["play"], &script).stdout.is_empty());
}

#[test]
fn compare_finds_no_difference_with_itself_and_one_with_others() {
    let same = program("same.sh", "play", "");
    let output = peer(&["compare", "--program", &same, "--seeds", "1..30"], b"");
    let report = text(&output.stdout);
    assert!(report.contains("Result: no difference."), "{report}");
    assert_eq!(output.status.code(), Some(0));

    let other = program("other.sh", "play", "| sed 's/^put refused 6/put ok/'");
    let output = peer(&["compare", "--program", &other, "--seeds", "1..30"], b"");
    let report = text(&output.stdout);
    assert!(report.contains("Result: 1 script differs."), "{report}");
    assert!(report.contains("peer:    put refused 6\nprogram: put ok\n"));
    let shrunk = report.split("---- script\n").nth(1).unwrap();
    let shrunk = shrunk.split("---- end").next().unwrap();
    assert!(shrunk.lines().count() <= 6, "{shrunk}");
    assert_eq!(output.status.code(), Some(1));
}

#[test]
fn wrong_arguments_are_told() {
    for (arguments, told) in [
        (&[][..], "no command"),
        (&["dance"][..], "no command `dance`"),
        (&["make"][..], "--seed"),
        (&["make", "--seed"][..], "needs a value"),
        (&["make", "--seed", "x"][..], "not a number"),
        (&["make", "--seed", "1", "--seed", "2"][..], "twice"),
        (&["make", "--seed", "1", "--calls", "0"][..], "1 or more"),
        (&["play", "file"][..], "not known"),
        (&["cover", "--seeds", "5"][..], "A..B"),
        (&["cover", "--seeds", "5..5"][..], "no seed"),
        (&["compare", "--seeds", "1..2"][..], "--program"),
        (
            &["compare", "--program", "/no/such", "--seeds", "1..2"][..],
            "no program at",
        ),
    ] {
        let output = peer(arguments, b"");
        assert!(text(&output.stderr).contains(told), "{arguments:?}");
        assert_eq!(output.status.code(), Some(2), "{arguments:?}");
    }
}

#[test]
fn help_is_there() {
    let output = peer(&["--help"], b"");
    for command in ["peer play", "peer make", "peer compare", "peer cover"] {
        assert!(text(&output.stdout).contains(command));
    }
    assert!(output.status.success());
}
