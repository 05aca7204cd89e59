//! Builds of the package by a cargo of their own: with a library of another
//! version, without a library, and without the feature `alloc`.

#![forbid(unsafe_code)]

use magnetar_cpu::Cursor;
use std::fs;
use std::path::{Path, PathBuf};
use std::process::{Command, Output};

const PACKAGE: &str = env!("CARGO_MANIFEST_DIR");

/// A new directory that has nothing but an empty `lib`: every build is from nothing.
fn directory(name: &str) -> PathBuf {
    let directory = Path::new(env!("CARGO_TARGET_TMPDIR")).join(name);
    if directory.exists() {
        fs::remove_dir_all(&directory).expect("an old directory");
    }
    fs::create_dir_all(directory.join("lib")).expect("a new directory");
    directory
}

/// A command of cargo that looks for the library in `lib` and builds in `target`.
fn cargo(directory: &Path, command: &str) -> Command {
    let mut cargo = Command::new(env!("CARGO"));
    cargo.args([command, "--offline", "--manifest-path"]);
    cargo.arg(Path::new(PACKAGE).join("Cargo.toml"));
    cargo.arg("--target-dir").arg(directory.join("target"));
    cargo.env("MAGNETAR_LIB", directory.join("lib"));
    cargo
}

fn run(command: &mut Command) -> Output {
    command
        .output()
        .unwrap_or_else(|error| panic!("{command:?}: {error}"))
}

fn pass(command: &mut Command) -> Output {
    let output = run(command);
    let text = String::from_utf8_lossy(&output.stderr);
    assert!(output.status.success(), "{command:?}: {text}");
    output
}

/// Puts a library of another version into `lib`.
fn make_other_size(directory: &Path) {
    let object = directory.join("other_size.o");
    let source = Path::new(PACKAGE).join("tests/other_size.c");
    let include = Path::new(PACKAGE).join("../../include");
    let mut cc = Command::new("cc");
    cc.arg("-c").arg("-I").arg(include);
    pass(cc.arg("-o").arg(&object).arg(source));
    let archive = directory.join("lib/libmagnetar_cpu.a");
    pass(Command::new("ar").arg("rcs").arg(archive).arg(object));
}

#[test]
fn a_library_of_another_version() {
    let directory = directory("other_size");
    make_other_size(&directory);
    let mut test = cargo(&directory, "test");
    test.env("EXPECTED_WORDS", (Cursor::WORDS + 1).to_string());
    let output = pass(test.args(["--test", "other_size"]));
    let text = String::from_utf8_lossy(&output.stdout);
    assert!(text.contains("3 passed; 0 failed; 0 ignored"), "{text}");
}

/// Documentation does without the library. A build says what makes it, and passes
/// once it is there, without the warning.
#[test]
fn a_missing_library() {
    let directory = directory("missing");
    pass(cargo(&directory, "doc").env("RUSTDOCFLAGS", "-D warnings"));
    let output = run(&mut cargo(&directory, "build"));
    assert!(!output.status.success());
    let text = String::from_utf8_lossy(&output.stderr);
    let missing = "the static library is missing: no libmagnetar_cpu.a in ";
    for part in [
        missing,
        "`tools/build magnetar_cpu` in the repository makes it",
        "MAGNETAR_LIB can name the directory",
        "could not find native static library",
    ] {
        assert!(text.contains(part), "{part}: {text}");
    }
    make_other_size(&directory);
    let output = pass(&mut cargo(&directory, "build"));
    let text = String::from_utf8_lossy(&output.stderr);
    assert!(!text.contains(missing), "{text}");
}

#[test]
fn no_default_features() {
    let directory = directory("no_default_features");
    pass(cargo(&directory, "check").arg("--no-default-features"));
}
