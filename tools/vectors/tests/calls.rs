//! Exit codes and messages of the program.

use std::fs;
use std::process::{Command, Output};

fn vectors(arguments: &[&str]) -> Output {
    Command::new(env!("CARGO_BIN_EXE_vectors"))
        .args(arguments)
        .output()
        .expect("vectors runs")
}

fn message(output: &Output) -> String {
    String::from_utf8_lossy(&output.stderr).into_owned()
}

/// A list of one good line, in the directory cargo gives to such tests.
fn list(name: &str) -> String {
    let path = format!("{}/{name}", env!("CARGO_TARGET_TMPDIR"));
    let line = "00500513 OpImm   10 00 05 0 00 0000000000000005\n";
    fs::write(&path, line).expect("a list is written");
    path
}

#[test]
fn wrong_calls_show_the_usage() {
    let calls: [&[&str]; 14] = [
        &[],
        &["encode"],
        &["decode", "list"],
        &["damage"],
        &["mutate", "true", "list"],
        &["mutate", "true", "list", "none"],
        &["interp", "list"],
        &["damage-calls"],
        &["mutate-calls", "true", "list", "0"],
        &["trace", "list"],
        &["damage-trace"],
        &["mutate-trace", "true", "list", "0"],
        &["answer-trace", "list"],
        &["compare-trace", "true", "1"],
    ];
    for call in calls {
        let output = vectors(call);
        assert_eq!(output.status.code(), Some(2), "{call:?}");
        assert!(message(&output).contains("usage: vectors"), "{call:?}");
        assert!(output.stdout.is_empty(), "{call:?}");
    }
}

#[test]
fn failures_say_what_was_wrong() {
    let output = vectors(&["damage", "no-such-list"]);
    assert_eq!(output.status.code(), Some(1));
    assert!(message(&output).contains("no-such-list"));
}

#[test]
fn an_absent_program_is_named() {
    let output = vectors(&["mutate", "no-such-program", &list("absent"), "1"]);
    assert_eq!(output.status.code(), Some(1));
    assert!(message(&output).contains("no-such-program"));
}

/// `true` says nothing, so it notices nothing.
#[test]
fn a_silent_program_fails() {
    let output = vectors(&["mutate", "true", &list("silent"), "3"]);
    assert_eq!(output.status.code(), Some(1));
    let text = String::from_utf8_lossy(&output.stdout).into_owned();
    assert!(text.ends_with("3 mutations, 3 unnoticed\n"), "{text}");
}

/// `echo` prints the name of its list, and this name looks like a complaint.
#[test]
fn a_program_that_accuses_the_good_list_fails() {
    let output = vectors(&["mutate", "echo", &list("a line 1: b"), "1"]);
    assert_eq!(output.status.code(), Some(1));
    assert!(message(&output).contains("names a line of the unchanged"));
}

/// A list as the program makes it, in a file; the letter that it begins with.
fn made_damaged_and_tested([make, damage, mutate]: [&str; 3], letter: &[u8]) {
    let listing = vectors(&[make]);
    assert_eq!(listing.status.code(), Some(0));
    let path = format!("{}/{make}", env!("CARGO_TARGET_TMPDIR"));
    fs::write(&path, &listing.stdout).expect("a list is written");

    let damaged = vectors(&[damage, &path]);
    assert_eq!(damaged.status.code(), Some(0), "{}", message(&damaged));
    assert!(damaged.stdout.starts_with(letter));

    let output = vectors(&[mutate, "true", &path, "3"]);
    assert_eq!(output.status.code(), Some(1));
    let text = String::from_utf8_lossy(&output.stdout).into_owned();
    assert!(text.ends_with("3 mutations, 3 unnoticed\n"), "{text}");
}

#[test]
fn lists_of_calls_are_made_damaged_and_tested() {
    made_damaged_and_tested(["interp", "damage-calls", "mutate-calls"], b"l ");
}

#[test]
fn lists_of_traces_are_made_damaged_and_tested() {
    made_damaged_and_tested(["trace", "damage-trace", "mutate-trace"], b"i ");
}
