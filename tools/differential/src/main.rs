//! Compares the static library with the model, in random rounds of calls.

#![forbid(unsafe_code)]

mod options;

use differential::{notice, notice_at_limits, Lend, Lending, Report, LIMITS};
use options::{Options, Task, USAGE};
use std::env;
use std::process::ExitCode;

fn main() -> ExitCode {
    let options = match Options::read(env::args().skip(1)) {
        Ok(options) => options,
        Err(message) => {
            eprintln!("differential: {message}");
            eprint!("{USAGE}");
            return ExitCode::from(2);
        }
    };
    let judged = match options.task {
        Task::Rounds(rounds) => run_rounds(options.seed, rounds),
        Task::Round(number) => run_one(options.seed, number),
        Task::Wrong(rounds) => run_wrong(options.seed, rounds),
    };
    match judged {
        Ok(()) => ExitCode::SUCCESS,
        Err(message) => {
            eprintln!("differential: {message}");
            ExitCode::FAILURE
        }
    }
}

fn library(lending: &mut Lending) -> u64 {
    lending.library()
}

/// The calls at the limits, and then that many random rounds.
fn run_rounds(seed: u64, rounds: u64) -> Result<(), String> {
    let mut report = Report::new(seed);
    report.add_round(LIMITS, library);
    (1..=rounds).for_each(|number| report.add_round(number, library));
    print_report(&report);
    println!("{rounds} rounds, seed {seed}: {} differ", report.differ());
    report.verdict()
}

fn run_one(seed: u64, number: u64) -> Result<(), String> {
    let mut report = Report::new(seed);
    report.add_round(number, library);
    print_report(&report);
    println!("round {number}, seed {seed}: {} differ", report.differ());
    report.verdict()
}

/// Tells in which round each wrong variant is noticed first. The library is not
/// called.
fn run_wrong(seed: u64, rounds: u64) -> Result<(), String> {
    let mut all = notice_at_limits(seed);
    all.extend(notice(seed, rounds, 1));
    for noticed in &all {
        let round = match noticed.first {
            Some(round) => format!("round {round}"),
            None => "not noticed".to_string(),
        };
        println!("{:<24}{:<45}{round}", noticed.functions(), noticed.name);
    }
    let missed = all.iter().filter(|noticed| noticed.first.is_none()).count();
    let variants = all.len();
    println!(
        "{variants} wrong variants, {rounds} rounds at most, seed {seed}: {missed} not noticed"
    );
    match missed {
        0 => Ok(()),
        _ => Err(format!(
            "{missed} of {variants} wrong variants were not noticed"
        )),
    }
}

fn print_report(report: &Report) {
    print!("{report}");
    report.first().iter().for_each(|text| println!("{text}"));
}
