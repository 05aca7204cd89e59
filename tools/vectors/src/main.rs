//! Makes and tests the lists of decoded words, of expanded programs, of segment
//! and padding calls, of traces and of cases about the manual that the port is
//! compared with, and compares the program `trace` on random inputs.

mod answer;
mod asm;
mod calldamage;
mod callline;
mod calllist;
mod compare;
mod damage;
mod encode;
mod forms;
mod formwords;
mod immediate;
mod interp;
mod linedamage;
mod list;
mod listing;
mod manual;
mod mixed;
mod mutate;
mod objdump;
mod operands;
mod plan;
mod programs;
mod rowdamage;
mod rowline;
mod tempfile;
mod tool;
mod trace;
mod tracedamage;
mod traceline;
#[cfg(test)]
mod unedited;
mod words;
mod wordset;

use callline::CALLS;
use list::{ListKind, WORDS};
use manual::MANUAL;
use rowline::PROGRAMS;
use std::env;
use std::ffi::OsString;
use std::io::{self, Read, Write};
use std::path::Path;
use std::process::ExitCode;
use std::str::FromStr;
use traceline::TRACES;

const USAGE: &str = "\
usage: vectors decode                            list the reference's answers
       vectors objdump                           list objdump's answers
       vectors damage FILE                       write a short, damaged list from FILE
       vectors mutate PROGRAM FILE COUNT         test that PROGRAM notices changes of FILE
       vectors expand                            list the reference's expansions
       vectors damage-rows FILE                  as damage, for a list of expansions
       vectors mutate-rows PROGRAM FILE COUNT    as mutate, for a list of expansions
       vectors interp                            list the reference's records and cursors
       vectors damage-calls FILE                 as damage, for lists of calls
       vectors mutate-calls PROGRAM FILE COUNT   as mutate, for lists of calls
       vectors trace                             list what the program trace must print
       vectors damage-trace FILE                 as damage, for a list of traces
       vectors mutate-trace PROGRAM FILE COUNT   as mutate, for a list of traces
       vectors qemu                              list qemu's results of single instructions
       vectors differences                       list where reference and manual part
       vectors damage-manual QEMU DIFFERENCES    as damage, from these two lists
       vectors mutate-manual PROGRAM FILE COUNT  as mutate, for one of them
       vectors answer-trace                      print what trace must print for standard input
       vectors compare-trace PROGRAM COUNT SEED  compare PROGRAM with trace on random inputs
";
const COMMANDS: [&str; 19] = [
    "decode",
    "objdump",
    "damage",
    "mutate",
    "expand",
    "damage-rows",
    "mutate-rows",
    "interp",
    "damage-calls",
    "mutate-calls",
    "trace",
    "damage-trace",
    "mutate-trace",
    "qemu",
    "differences",
    "damage-manual",
    "mutate-manual",
    "answer-trace",
    "compare-trace",
];

/// Why a run did not succeed.
enum Failure {
    /// The call is wrong: exit 2, with the usage text.
    Call(String),
    /// The work failed: exit 1.
    Work(String),
}

impl From<String> for Failure {
    fn from(message: String) -> Self {
        Failure::Work(message)
    }
}

fn main() -> ExitCode {
    let arguments: Vec<OsString> = env::args_os().skip(1).collect();
    match run(&arguments) {
        Ok(code) => code,
        Err(Failure::Call(message)) => {
            eprint!("vectors: {message}\n{USAGE}");
            ExitCode::from(2)
        }
        Err(Failure::Work(message)) => {
            eprintln!("vectors: {message}");
            ExitCode::FAILURE
        }
    }
}

fn run(arguments: &[OsString]) -> Result<ExitCode, Failure> {
    let Some((command, rest)) = arguments.split_first() else {
        return Err(Failure::Call("no command given".to_string()));
    };
    match (command.to_str(), rest) {
        (Some("decode"), []) => print(words::listing().as_bytes()),
        (Some("objdump"), []) => print(objdump::listing()?.as_bytes()),
        (Some("damage"), [file]) => print(&damage::listing(&WORDS.read(Path::new(file))?)?),
        (Some("mutate"), [program, file, count]) => mutations(&WORDS, program, file, count),
        (Some("expand"), []) => print(programs::listing().as_bytes()),
        (Some("damage-rows"), [file]) => {
            print(&rowdamage::listing(&PROGRAMS.read(Path::new(file))?)?)
        }
        (Some("mutate-rows"), [program, file, count]) => mutations(&PROGRAMS, program, file, count),
        (Some("interp"), []) => print(interp::listing().as_bytes()),
        (Some("damage-calls"), [file]) => {
            print(&calldamage::listing(&CALLS.read(Path::new(file))?)?)
        }
        (Some("mutate-calls"), [program, file, count]) => mutations(&CALLS, program, file, count),
        (Some("trace"), []) => print(trace::listing().as_bytes()),
        (Some("damage-trace"), [file]) => {
            print(&tracedamage::listing(&TRACES.read(Path::new(file))?)?)
        }
        (Some("mutate-trace"), [program, file, count]) => mutations(&TRACES, program, file, count),
        (Some("qemu"), []) => print(manual::agreeing_listing()?.as_bytes()),
        (Some("differences"), []) => print(manual::differing_listing()?.as_bytes()),
        (Some("damage-manual"), [agreeing, differing]) => {
            let mut list = MANUAL.read(Path::new(agreeing))?;
            list.extend(MANUAL.read(Path::new(differing))?);
            print(&manual::damaged_listing(&list)?)
        }
        (Some("mutate-manual"), [program, file, count]) => mutations(&MANUAL, program, file, count),
        (Some("answer-trace"), []) => print(&answer::answer(&standard_input()?)),
        (Some("compare-trace"), [program, count, seed]) => comparison(program, count, seed),
        (Some(known), _) if COMMANDS.contains(&known) => Err(Failure::Call(format!(
            "wrong number of arguments for {known}"
        ))),
        _ => Err(Failure::Call(format!(
            "unknown command {}",
            command.display()
        ))),
    }
}

fn mutations(
    kind: &ListKind,
    program: &OsString,
    file: &OsString,
    count: &OsString,
) -> Result<ExitCode, Failure> {
    let count = positive(count)?;
    let file = Path::new(file);
    let list = kind.read(file)?;
    mutate::require_silence(program, file)?;
    let unnoticed = mutate::unnoticed(kind, &list, count, |bytes| mutate::run_on(program, bytes))?;
    print(mutate::report(count, &unnoticed).as_bytes())?;
    Ok(success_if(unnoticed.is_empty()))
}

fn comparison(program: &OsString, count: &OsString, seed: &OsString) -> Result<ExitCode, Failure> {
    let count = positive(count)?;
    let seed = number(seed)
        .ok_or_else(|| Failure::Call(format!("SEED must be a number, not {}", seed.display())))?;
    let comparison = compare::compare(count, seed, |input| compare::run_with(program, input))?;
    print(comparison.report().as_bytes())?;
    Ok(success_if(comparison.is_good()))
}

fn success_if(good: bool) -> ExitCode {
    match good {
        true => ExitCode::SUCCESS,
        false => ExitCode::FAILURE,
    }
}

fn positive(count: &OsString) -> Result<usize, Failure> {
    number(count).filter(|&number| number > 0).ok_or_else(|| {
        Failure::Call(format!(
            "COUNT must be a positive number, not {}",
            count.display()
        ))
    })
}

fn number<T: FromStr>(text: &OsString) -> Option<T> {
    text.to_str().and_then(|text| text.parse().ok())
}

fn standard_input() -> Result<Vec<u8>, Failure> {
    let mut bytes = Vec::new();
    io::stdin()
        .lock()
        .read_to_end(&mut bytes)
        .map_err(|error| Failure::Work(format!("standard input: {error}")))?;
    Ok(bytes)
}

fn print(bytes: &[u8]) -> Result<ExitCode, Failure> {
    let mut output = io::stdout().lock();
    output
        .write_all(bytes)
        .and_then(|()| output.flush())
        .map_err(|error| Failure::Work(format!("standard output: {error}")))?;
    Ok(ExitCode::SUCCESS)
}

#[cfg(test)]
mod tests {
    use super::*;
    use tempfile::TempFile;

    fn call(arguments: &[&str]) -> Result<ExitCode, Failure> {
        let arguments: Vec<OsString> = arguments.iter().map(OsString::from).collect();
        run(&arguments)
    }

    #[test]
    fn the_usage_names_every_command() {
        for command in COMMANDS {
            assert!(USAGE.contains(&format!(" vectors {command} ")), "{command}");
            let many = [command, "a", "b", "c", "d"];
            assert!(matches!(call(&many), Err(Failure::Call(text)) if text.starts_with("wrong")));
        }
        let unknown = call(&["expands"]);
        assert!(matches!(unknown, Err(Failure::Call(text)) if text.starts_with("unknown")));
    }

    /// The text of a failure that is not a wrong call.
    fn failure(arguments: &[&str]) -> String {
        match call(arguments) {
            Err(Failure::Work(text)) => text,
            _ => panic!("{arguments:?} does not fail at its work"),
        }
    }

    #[test]
    fn lists_are_read_by_their_kind() {
        let words = TempFile::new(words::listing().as_bytes()).unwrap();
        let programs = TempFile::new(programs::listing().as_bytes()).unwrap();
        let calls = TempFile::new(interp::listing().as_bytes()).unwrap();
        let traces = TempFile::new(trace::listing().as_bytes()).unwrap();
        let wrong = [
            ("damage", &programs),
            ("damage-rows", &words),
            ("damage-calls", &words),
            ("damage-rows", &calls),
            ("damage-trace", &calls),
            ("damage-calls", &traces),
        ];
        for (command, file) in wrong {
            let text = failure(&[command, file.path().to_str().unwrap()]);
            assert!(text.contains(" is not "), "{text}");
        }
    }

    #[test]
    fn cases_about_the_manual_are_read_from_two_lists() {
        let traces = TempFile::new(trace::listing().as_bytes()).unwrap();
        let cases = TempFile::new(manual::stored("differences.txt").as_bytes()).unwrap();
        let [traces, cases] = [&traces, &cases].map(|file| file.path().to_str().unwrap());
        for files in [[traces, cases], [cases, traces]] {
            let text = failure(&["damage-manual", files[0], files[1]]);
            assert!(text.contains(" is not "), "{text}");
        }
        let text = failure(&["mutate-manual", "true", traces, "1"]);
        assert!(text.contains(" is not "), "{text}");
    }

    #[test]
    fn mutate_rows_wants_a_count_and_a_program() {
        let file = TempFile::new(programs::listing().as_bytes()).unwrap();
        let path = file.path().to_str().unwrap();
        let none = call(&["mutate-rows", "true", path, "0"]);
        assert!(matches!(none, Err(Failure::Call(_))));
        let text = failure(&["mutate-rows", "no-such-program", path, "1"]);
        assert!(text.starts_with("no-such-program: "), "{text}");
    }
}
