//! The comparison with a program, and the script that runs it for `trace`.

use std::fs;
use std::process::{Command, Output};

const STAND_IN: &str = concat!(env!("CARGO_MANIFEST_DIR"), "/tests/stand-in");
const SCRIPT: &str = concat!(env!("CARGO_MANIFEST_DIR"), "/../compare-trace");
const VECTORS: &str = env!("CARGO_BIN_EXE_vectors");

/// Compares the right answers, edited by this shell command, on so many inputs.
fn compared(edit: &str, count: &str) -> Output {
    Command::new(VECTORS)
        .args(["compare-trace", STAND_IN, count, "1"])
        .envs([("VECTORS", VECTORS), ("EDIT", edit)])
        .output()
        .expect("vectors runs")
}

fn lines(output: &Output) -> Vec<String> {
    let text = String::from_utf8_lossy(&output.stdout);
    text.lines().map(String::from).collect()
}

#[test]
fn right_answers_pass() {
    let output = compared("cat", "60");
    assert_eq!(output.status.code(), Some(0));
    let lines = lines(&output);
    assert_eq!(lines.len(), 1);
    assert!(lines[0].starts_with("60 inputs: "), "{}", lines[0]);
    assert!(lines[0].ends_with("; 0 differ"), "{}", lines[0]);
}

/// The input that the first line names is removed, after a look at it.
#[test]
fn wrong_answers_are_found() {
    let edits = [
        "head -c -1",
        "sed '1s/,/,,/'",
        "sed 's/refused,1/refused,0/'",
        "sed '$d'",
    ];
    for edit in edits {
        let output = compared(edit, "60");
        assert_eq!(output.status.code(), Some(1), "{edit}");
        let lines = lines(&output);
        for line in &lines[..lines.len() - 1] {
            assert!(line.starts_with("seed 1, input "), "{line}");
            let (_, rest) = line.split_once(" kept in ").expect("a file is named");
            let file = rest.split(':').next().expect("it has a name");
            assert!(fs::read(file).expect("it is there").len() <= 4200);
            fs::remove_file(file).expect("it is removed");
        }
        let last = &lines[lines.len() - 1];
        assert!(last.starts_with("60 inputs: "), "{last}");
        assert!(!last.ends_with(" 0 differ"), "{last}");
    }
}

#[test]
fn wrong_calls_show_the_usage() {
    for [count, seed] in [["0", "1"], ["1", "-1"], ["many", "1"], ["1", ""]] {
        let output = Command::new(VECTORS)
            .args(["compare-trace", STAND_IN, count, seed])
            .output()
            .expect("vectors runs");
        assert_eq!(output.status.code(), Some(2), "{count} {seed}");
    }
}

/// What the script says on standard error where it cannot begin.
fn complaint(program: &str, source: &str) -> String {
    let output = Command::new(SCRIPT)
        .args(["1", "1", program])
        .env("MAGNETAR_SRC", source)
        .output()
        .expect("the script runs");
    assert_eq!(output.status.code(), Some(1));
    assert!(output.stdout.is_empty());
    String::from_utf8_lossy(&output.stderr).into_owned()
}

#[test]
fn the_script_says_what_is_missing() {
    let text = complaint("/no/such/program", "/");
    assert!(text.contains("/no/such/program"), "{text}");
    assert!(text.contains("run tools/build trace first"), "{text}");
    let text = complaint(STAND_IN, "/no/such/source");
    assert!(
        text.contains("the Rust source of magnetar-cpu is not in /no/such/source"),
        "{text}"
    );
}
