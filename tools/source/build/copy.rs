//! Copies the Rust source of magnetar-cpu to where the crate is built, and
//! writes the file that includes it. The build scripts of `source` and
//! `unedited` share it.
//!
//! The source is not part of this repository and is never copied into it.

use std::collections::BTreeMap;
use std::env;
use std::fs;
use std::path::{Path, PathBuf};
use std::process;

const VARIABLE: &str = "MAGNETAR_SRC";
const DEFAULT: &str = "../../../shared/docs/src/crates/magnetar-cpu/src";
const MODULES: [&str; 3] = ["decode", "expand", "interp"];
/// What the modules use from the crate root. The root itself is not compiled,
/// because it also names modules that are not needed here.
const ITEMS: [&str; 3] = [
    "pub type Word =",
    "pub const REGS:",
    "pub const RAM_WORDS_LOG2:",
];

/// Writes the crate's files after `edit` has had their names and texts, or ends
/// the build with a message.
pub fn make(edit: impl FnOnce(&mut BTreeMap<String, String>) -> Result<(), String>) {
    println!("cargo:rerun-if-changed=build.rs");
    println!("cargo:rerun-if-env-changed={VARIABLE}");
    if let Err(message) = run(edit) {
        eprintln!("{message}");
        process::exit(1);
    }
}

fn run(
    edit: impl FnOnce(&mut BTreeMap<String, String>) -> Result<(), String>,
) -> Result<(), String> {
    let source = source_directory()?;
    let output = PathBuf::from(variable("OUT_DIR")?);
    let mut files = BTreeMap::new();
    for module in MODULES {
        let name = format!("{module}.rs");
        let text = source_text(&source, &name)?;
        files.insert(name, text);
    }
    edit(&mut files)?;
    for (name, text) in &files {
        write(&output.join(name), text)?;
    }
    write(&output.join("modules.rs"), &root(&source, &output)?)?;
    // For the test that the copies are what lies there.
    println!("cargo:rustc-env=SOURCE_DIRECTORY={}", source.display());
    Ok(())
}

/// The crate root: the modules, by the places of their copies, and its items.
fn root(source: &Path, output: &Path) -> Result<String, String> {
    let mut text = String::new();
    for module in MODULES {
        let file = output.join(format!("{module}.rs"));
        let path = file
            .to_str()
            .ok_or(format!("{}: the path is not UTF-8", file.display()))?;
        text.push_str(&format!("#[path = {path:?}]\npub mod {module};\n"));
    }
    let lines = source_text(source, "lib.rs")?;
    for item in ITEMS {
        let line = item_line(&lines, item);
        text.push_str(line.ok_or(format!("lib.rs of the source: no line `{item} ...;`"))?);
        text.push('\n');
    }
    Ok(text)
}

/// The directory of the source, absolute and without `..`.
fn source_directory() -> Result<PathBuf, String> {
    let named = env::var_os(VARIABLE).unwrap_or_else(|| DEFAULT.into());
    let directory = Path::new(&variable("CARGO_MANIFEST_DIR")?).join(named);
    directory
        .canonicalize()
        .map_err(|_| missing(&directory, "decode.rs"))
}

/// The text of a source file, which must be there; cargo is told to watch it.
fn source_text(directory: &Path, name: &str) -> Result<String, String> {
    let file = directory.join(name);
    if !file.is_file() {
        return Err(missing(directory, name));
    }
    println!("cargo:rerun-if-changed={}", file.display());
    fs::read_to_string(&file).map_err(|error| format!("{}: {error}", file.display()))
}

fn missing(directory: &Path, name: &str) -> String {
    format!(
        "the Rust source of magnetar-cpu is missing: no {name} in {}; \
         {VARIABLE} can name the directory that holds it (absolute path)",
        directory.display()
    )
}

fn item_line<'a>(lines: &'a str, item: &str) -> Option<&'a str> {
    lines
        .lines()
        .find(|line| line.starts_with(item) && line.ends_with(';'))
}

fn write(file: &Path, text: &str) -> Result<(), String> {
    fs::write(file, text).map_err(|error| format!("{}: {error}", file.display()))
}

fn variable(name: &str) -> Result<String, String> {
    env::var(name).map_err(|error| format!("{name}: {error}"))
}
