//! The program itself: what it prints, and its exit codes.

#![forbid(unsafe_code)]

use std::process::{Command, Output};

fn differential(arguments: &[&str]) -> Output {
    let mut command = Command::new(env!("CARGO_BIN_EXE_differential"));
    command.args(arguments).output().expect("the program runs")
}

fn text(bytes: &[u8]) -> String {
    String::from_utf8(bytes.to_vec()).expect("text")
}

/// The last line of a run that must succeed, and the words of the lines before.
fn succeeded(arguments: &[&str]) -> (Vec<Vec<String>>, String) {
    let output = differential(arguments);
    assert_eq!(text(&output.stderr), "");
    assert_eq!(output.status.code(), Some(0));
    let printed = text(&output.stdout);
    let words = |line: &str| line.split_whitespace().map(str::to_string).collect();
    let lines: Vec<Vec<String>> = printed.lines().map(words).collect();
    let last = printed.lines().last().expect("a last line").to_string();
    (lines, last)
}

/// So few rounds need not have every answer.
#[test]
fn few_rounds() {
    let (lines, last) = succeeded(&["--seed=7", "20"]);
    assert_eq!(last, "20 rounds, seed 7: 0 differ");
    assert_eq!(lines[0].join(" "), "answer 0 1 2 3 4 5 6 7 8 9 10 11 12");
    let names: Vec<&str> = lines[1..14].iter().map(|line| line[0].as_str()).collect();
    let wanted =
        "expand is_expansion start segment padding execute same index_build index_add report \
         dispatcher_start dispatcher_add dispatcher_turn";
    assert_eq!(names.join(" "), wanted);
    // Refusal 2 comes from the calls at the limits.
    let too_many: Vec<&str> = lines[1..14].iter().map(|line| line[3].as_str()).collect();
    assert_eq!(too_many.join(" "), "1 - - 1 1 1 - - - - - - -");
    let reasons = &lines[14..lines.len() - 1];
    assert!(reasons
        .iter()
        .all(|line| ["add:", "turn:"].contains(&line[0].as_str())));
    assert_eq!(reasons.len(), 8);
}

#[test]
fn one_round() {
    let (lines, last) = succeeded(&["--round=3", "--seed=7"]);
    assert_eq!(last, "round 3, seed 7: 0 differ");
    let (again, _) = succeeded(&["--seed=7", "--round=3"]);
    assert_eq!(lines, again);
    let (other, _) = succeeded(&["--seed=7", "--round=4"]);
    assert_ne!(lines, other);
}

/// One round does not show every wrong variant.
#[test]
fn wrong_variants_that_are_not_noticed() {
    let output = differential(&["--wrong", "1"]);
    assert_eq!(output.status.code(), Some(1));
    let printed = text(&output.stdout);
    let missed = printed
        .lines()
        .filter(|line| line.ends_with(" not noticed"));
    // The last line ends so too.
    let missed = missed.count() - 1;
    let variants = printed.lines().count() - 1;
    let message = format!("differential: {missed} of {variants} wrong variants were not noticed\n");
    assert_eq!(text(&output.stderr), message);
    assert!(missed > 0);
}

#[test]
fn wrong_arguments() {
    for arguments in [&["--rounds=3"][..], &["0"], &["--seed=-1"], &["1", "2"]] {
        let output = differential(arguments);
        assert_eq!(output.status.code(), Some(2));
        assert!(output.stdout.is_empty());
        let complaint = text(&output.stderr);
        assert!(complaint.starts_with("differential: "), "{complaint}");
        assert!(complaint.contains("\nusage: differential "), "{complaint}");
    }
}
