//! The examples, run as programs.

#![forbid(unsafe_code)]

use std::env;
use std::fs;
use std::path::Path;
use std::process::{Command, Output};

/// The path of a file among the repository's examples.
fn shipped(name: &str) -> String {
    format!("{}/../../examples/{name}", env!("CARGO_MANIFEST_DIR"))
}

/// The path of a file that holds this.
fn made(name: &str, content: &str) -> String {
    let path = Path::new(env!("CARGO_TARGET_TMPDIR")).join(name);
    fs::write(&path, content).expect("a file in the directory of tests");
    path.to_str().expect("a path of text").to_string()
}

/// Cargo builds the examples beside the tests, unless it is told to run single
/// ones.
fn run(example: &str, arguments: &[&str]) -> Output {
    let test = env::current_exe().expect("the path of this test");
    let directory = test.ancestors().nth(2).expect("the directory of a build");
    let example = directory.join("examples").join(example);
    let run = Command::new(&example).args(arguments).output();
    run.unwrap_or_else(|error| panic!("{}: {error}", example.display()))
}

/// What is printed, if nothing is complained of.
fn printed(example: &str, arguments: &[&str]) -> String {
    let output = run(example, arguments);
    assert_eq!(String::from_utf8_lossy(&output.stderr), "");
    assert_eq!(output.status.code(), Some(0));
    String::from_utf8(output.stdout).expect("text")
}

/// The complaint, if nothing is printed.
fn complaint(example: &str, arguments: &[&str]) -> String {
    let output = run(example, arguments);
    assert_eq!(String::from_utf8_lossy(&output.stdout), "");
    assert_eq!(output.status.code(), Some(1));
    String::from_utf8(output.stderr).expect("text")
}

#[test]
fn the_rule_that_ships() {
    let rule = shipped("tariff.bin");
    let wanted = fs::read_to_string(shipped("tariff.trace")).expect("the stored answer");
    assert!(wanted.starts_with("13,16,4400\n"));
    for arguments in [["64", "1200", "1350"], ["0x40", "0x4b0", "0x546"]] {
        let arguments = [&[&*rule], &arguments[..]].concat();
        assert_eq!(printed("records", &arguments), wanted);
    }
}

#[test]
fn refusals_of_the_library() {
    let rule = shipped("tariff.bin");
    for max_cycles in ["4294967297", "0xffffffffffffffff"] {
        assert_eq!(printed("records", &[&rule, max_cycles]), "refused,5\n");
    }
    let empty = made("empty.bin", "");
    assert_eq!(printed("records", &[&empty, "1"]), "refused,1\n");
}

#[test]
fn wrong_arguments() {
    let rule = shipped("tariff.bin");
    let complaint = |arguments: &[&str]| complaint("records", arguments);
    let usage = "records: usage: records PROGRAM MAX_CYCLES [INPUT..]\n";
    assert_eq!(complaint(&[]), usage);
    assert_eq!(complaint(&[&rule]), usage);
    assert!(complaint(&[&rule, "many"]).starts_with("records: 'many': "));
    assert!(complaint(&[&rule, "1", "-1"]).starts_with("records: '-1': "));
    assert!(complaint(&["absent.bin", "1"]).starts_with("records: absent.bin: "));
    let odd = made("odd.bin", "12345");
    assert!(complaint(&[&odd, "1"]).ends_with(": the length is no multiple of 4\n"));
}

/// Cycles, length, threads and the count of segments: runs that halt and that do
/// not, segments that fill the run and that do not, more threads than segments.
#[test]
fn segments_made_anew() {
    let rule = shipped("tariff.bin");
    for (cycles, length, threads, segments) in [
        (13, 4, 2, 4),
        (16, 4, 1, 4),
        (64, 1, 7, 64),
        (5, 9, 3, 1),
        (0, 1, 1, 0),
    ] {
        let numbers = [cycles, length, threads].map(|number| number.to_string());
        let arguments = [&rule, &numbers[0], &numbers[1], &numbers[2], "1200", "1350"];
        let wanted = format!(
            "cycles {cycles}, segments {segments}, threads {threads}: \
             the joined log is that of one call\n"
        );
        assert_eq!(printed("segments", &arguments), wanted);
    }
}

#[test]
fn wrong_arguments_of_segments() {
    let rule = shipped("tariff.bin");
    let complaint = |arguments: &[&str]| complaint("segments", arguments);
    let usage = "segments: usage: segments PROGRAM CYCLES LENGTH THREADS [INPUT..]\n";
    assert_eq!(complaint(&[&rule, "13", "4"]), usage);
    let range = "segments: LENGTH is 1 or more, THREADS 1 to 256\n";
    assert_eq!(complaint(&[&rule, "13", "0", "2"]), range);
    assert_eq!(complaint(&[&rule, "13", "4", "0"]), range);
    assert_eq!(complaint(&[&rule, "13", "4", "257"]), range);
    let empty = made("no_words.bin", "");
    let refused = "segments: there are no program words, or no rows\n";
    assert_eq!(complaint(&[&empty, "13", "4", "2"]), refused);
}
