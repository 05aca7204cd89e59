//! Times the static library beside the reference, in one run. The tables call the
//! reference Rust.

mod figures;
mod index;
mod machine;
mod mix;
mod report;
mod short;
mod target;
mod turns;
mod untimed;

use differential::{ordinary_word, program, register_shift, Rng};
use figures::Reported;
use index::Indexed;
use machine::{Machine, LOOPS};
use magnetar_cpu::MAX_PROGRAM_WORDS;
use mix::Mix;
use report::{
    print_cold, print_dispatchers, print_expansion, print_indexes, print_machines, print_reports,
    print_short, print_test,
};
use short::Short;
use std::env;
use std::process::ExitCode;
use target::{judge, Missed};
use turns::Dispatched;
use untimed::Untimed;

const USAGE: &str = "\
usage: bench [--require] [--slack=PERCENT] [ROUNDS]
       bench run rust|packed|library LOOP CYCLES CALLS
  --require: exit 1 also if the test's target is missed
  --slack: exit 1 only if a target is missed by more than that
  run: only run segments of a loop, untimed, to count their instructions
";
const ROUNDS: usize = 20;
const SEED: u64 = 0x4245_4e43;
/// The lengths of the segments that are timed.
const SEGMENTS: [usize; 2] = [4096, 65_536];
/// What is written to displace a segment's memory from the cache: several times
/// a large cache.
const DISPLACING_MIB: usize = 256;

type Word = fn(&mut Rng) -> u32;
const MIXES: [(&str, Word); 3] = [
    ("no register shifts", ordinary_word),
    ("1 in 16, at random", sometimes_shift),
    ("all register shifts", register_shift),
];

fn sometimes_shift(rng: &mut Rng) -> u32 {
    match rng.below(16) {
        0 => register_shift(rng),
        _ => ordinary_word(rng),
    }
}

fn main() -> ExitCode {
    if cfg!(debug_assertions) {
        eprintln!("bench: built with debug assertions, so times mean nothing: use --release");
        return ExitCode::from(2);
    }
    let arguments: Vec<String> = env::args().skip(1).collect();
    let Some(command) = Command::read(&arguments) else {
        eprint!("{USAGE}");
        return ExitCode::from(2);
    };
    match command.run() {
        Ok(()) => ExitCode::SUCCESS,
        Err(message) => {
            eprintln!("bench: {message}");
            ExitCode::FAILURE
        }
    }
}

#[derive(Debug, PartialEq)]
enum Command {
    Time(Options),
    Run(Untimed),
}

impl Command {
    fn read(arguments: &[String]) -> Option<Command> {
        match arguments {
            [first, others @ ..] if first == "run" => Untimed::read(others).map(Command::Run),
            _ => Options::read(arguments).map(Command::Time),
        }
    }

    /// An error if something failed or a target was missed.
    fn run(&self) -> Result<(), String> {
        match self {
            Command::Time(options) => {
                let missed = run(options.rounds)?;
                judge(&missed, options.require, options.slack)
            }
            Command::Run(untimed) => untimed.run(),
        }
    }
}

#[derive(Debug, PartialEq)]
struct Options {
    /// Whether targets other than ratios count too.
    require: bool,
    /// How far, in percent, a target may be missed.
    slack: f64,
    rounds: usize,
}

impl Options {
    fn read(arguments: &[String]) -> Option<Options> {
        let mut options = Options {
            require: false,
            slack: 0.0,
            rounds: ROUNDS,
        };
        for argument in arguments {
            if argument == "--require" {
                options.require = true;
            } else if let Some(percent) = argument.strip_prefix("--slack=") {
                let percent: u32 = percent.parse().ok().filter(|&percent| percent < 100)?;
                options.slack = percent.into();
            } else {
                options.rounds = argument.parse().ok().filter(|&number| number > 0)?;
            }
        }
        Some(options)
    }
}

/// Prints the tables and gives the targets that were missed.
fn run(rounds: usize) -> Result<Vec<Missed>, String> {
    let mut rng = Rng::new(SEED);
    let mixes =
        MIXES.map(|(name, word)| Mix::new(name, program(MAX_PROGRAM_WORDS, &mut rng, word)));
    let mut mixes = mixes.into_iter().collect::<Result<Vec<Mix>, String>>()?;
    for _ in 0..rounds {
        mixes.iter_mut().for_each(Mix::round);
    }
    let mut calls = Calls::new()?;
    for _ in 0..rounds {
        calls.round();
    }
    println!("Programs of {MAX_PROGRAM_WORDS} words, release build.");
    println!("Rust and library in turn, best of {rounds} rounds.");
    let mut missed = Vec::new();
    print_expansion(&mixes, &mut missed);
    print_test(&mixes, &mut missed);
    print_machines(&calls.machines, &mut missed);
    print_cold(&calls.cold, DISPLACING_MIB);
    print_short(&calls.shorts);
    print_indexes(&calls.indexes, &mut missed);
    print_reports(&calls.reports, &mut missed);
    print_dispatchers(&calls.dispatchers);
    Ok(missed)
}

/// All segments, indexes, reports and dispatchers that are timed. They share their
/// rounds, so that times of a busy computer fall on every table.
struct Calls {
    machines: Vec<Machine>,
    cold: Vec<Machine>,
    others: Vec<u64>,
    shorts: Vec<Short>,
    indexes: Vec<Indexed>,
    reports: Vec<Reported>,
    dispatchers: Vec<Dispatched>,
}

impl Calls {
    fn new() -> Result<Calls, String> {
        Ok(Calls {
            machines: machines(&SEGMENTS)?,
            cold: machines(&SEGMENTS[1..])?,
            others: vec![0; (DISPLACING_MIB << 20) / size_of::<u64>()],
            shorts: Short::all()?,
            indexes: Indexed::all()?,
            reports: Reported::all()?,
            dispatchers: Dispatched::all()?,
        })
    }

    fn round(&mut self) {
        self.machines.iter_mut().for_each(Machine::round);
        for machine in &mut self.cold {
            machine.cold_round(&mut self.others);
        }
        self.shorts.iter_mut().for_each(Short::round);
        self.indexes.iter_mut().for_each(Indexed::round);
        self.reports.iter_mut().for_each(Reported::round);
        self.dispatchers.iter_mut().for_each(Dispatched::round);
    }
}

/// Every loop with segments of each length.
fn machines(lengths: &[usize]) -> Result<Vec<Machine>, String> {
    let of_length = |&cycles| LOOPS.iter().map(move |of| Machine::new(of, cycles));
    lengths.iter().flat_map(of_length).collect()
}

#[cfg(test)]
mod tests {
    use super::*;

    fn parsed(text: &str) -> Option<Command> {
        let words = text.split_whitespace().map(str::to_string);
        Command::read(&words.collect::<Vec<String>>())
    }

    #[test]
    fn arguments() {
        let options = |require, slack, rounds| {
            Command::Time(Options {
                require,
                slack,
                rounds,
            })
        };
        assert_eq!(parsed(""), Some(options(false, 0.0, ROUNDS)));
        assert_eq!(parsed("3 --require"), Some(options(true, 0.0, 3)));
        assert_eq!(parsed("--slack=25 5"), Some(options(false, 25.0, 5)));
        for wrong in ["0", "--requires", "--slack", "--slack=100", "--slack=-1"] {
            assert_eq!(parsed(wrong), None, "{wrong}");
        }
        let run = parsed("run rust ALU 64 10");
        assert!(matches!(run, Some(Command::Run(_))));
        assert_eq!(parsed("run rust ALU 64"), None);
    }
}
