//! Finds the static library of the port and links it.

use std::env;
use std::path::{Path, PathBuf};

const VARIABLE: &str = "MAGNETAR_LIB";
const DEFAULT: &str = "../../target/staticlib";
const FILE: &str = "libmagnetar_cpu.a";
const MAKER: &str = "tools/build magnetar_cpu";

/// A missing library is no error here: `cargo doc` and `cargo check` do without
/// it, and of a build that needs it rustc says that it is not there.
fn main() {
    println!("cargo:rerun-if-changed=build.rs");
    println!("cargo:rerun-if-env-changed={VARIABLE}");
    let directory = directory();
    let file = directory.join(FILE);
    if !file.is_file() {
        println!("cargo:warning={}", missing(&directory));
    }
    // Of a missing file too: cargo then runs this until it is there.
    println!("cargo:rerun-if-changed={}", file.display());
    println!("cargo:rustc-link-search=native={}", directory.display());
    println!("cargo:rustc-link-lib=static=magnetar_cpu");
}

/// The directory that must hold the library, without `..` if it is there.
fn directory() -> PathBuf {
    let named = env::var_os(VARIABLE).unwrap_or_else(|| DEFAULT.into());
    let directory = Path::new(env!("CARGO_MANIFEST_DIR")).join(named);
    directory.canonicalize().unwrap_or(directory)
}

fn missing(directory: &Path) -> String {
    format!(
        "the static library is missing: no {FILE} in {}; \
         `{MAKER}` in the repository makes it, \
         and {VARIABLE} can name the directory that holds it (absolute path)",
        directory.display()
    )
}
