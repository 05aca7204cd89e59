//! Runs the programs of other packages.

use std::io::ErrorKind;
use std::process::{Command, Stdio};

pub const BINUTILS: &str = "binutils-riscv64-linux-gnu";

/// A program and the Debian package that has it.
pub struct Tool {
    pub name: &'static str,
    pub package: &'static str,
}

impl Tool {
    /// What it writes to standard output. That it is absent or fails is an error.
    pub fn output(&self, arguments: &[&str], input: Stdio) -> Result<Vec<u8>, String> {
        let Tool { name, package } = self;
        let output = Command::new(name)
            .args(arguments)
            .stdin(input)
            .env("LC_ALL", "C")
            .output()
            .map_err(|error| match error.kind() {
                ErrorKind::NotFound => {
                    format!("{name} is not installed; the Debian package is {package}")
                }
                _ => format!("{name}: {error}"),
            })?;
        if !output.status.success() {
            let message = String::from_utf8_lossy(&output.stderr);
            return Err(format!("{name}: {}: {message}", output.status));
        }
        Ok(output.stdout)
    }
}

/// What a tool gave; `None`, with a word about it, where it is not installed.
#[cfg(test)]
pub fn unless_absent<T>(test: &str, given: Result<T, String>) -> Option<T> {
    use std::io::{stderr, Write};
    match given {
        Err(message) if message.contains("not installed") => {
            // Written past the test's capture, so that it is seen.
            let _ = writeln!(stderr(), "skipped {test}: {message}");
            None
        }
        given => Some(given.unwrap()),
    }
}

#[cfg(test)]
mod tests {
    use super::*;

    fn run(name: &'static str) -> Result<Vec<u8>, String> {
        let package = "no-such-package";
        Tool { name, package }.output(&[], Stdio::null())
    }

    #[test]
    fn absent_and_failing_programs_are_named() {
        let absent = run("no-such-program");
        let message = "no-such-program is not installed; the Debian package is no-such-package";
        assert_eq!(absent, Err(message.to_string()));
        assert!(run("false")
            .unwrap_err()
            .starts_with("false: exit status: 1"));
        assert_eq!(run("true"), Ok(Vec::new()));
    }
}
