//! The arguments of the program.

pub const USAGE: &str = "\
usage: differential [--seed=N] [ROUNDS]
       differential [--seed=N] --round=N
       differential [--seed=N] --wrong [ROUNDS]
  ROUNDS: how many rounds, 20000 if not told; the calls at the limits come before them
  --seed: another seed than 1
  --round: that round only; 0 is that of the calls at the limits
  --wrong: look for wrong variants of the calls instead of calling the library
";
const SEED: u64 = 1;
const ROUNDS: u64 = 20_000;

#[derive(Debug, PartialEq)]
pub struct Options {
    pub seed: u64,
    pub task: Task,
}

#[derive(Debug, PartialEq)]
pub enum Task {
    Rounds(u64),
    Round(u64),
    Wrong(u64),
}

impl Options {
    /// An error says what is wrong with the arguments.
    pub fn read(arguments: impl Iterator<Item = String>) -> Result<Self, String> {
        let mut seed = None;
        let mut round = None;
        let mut rounds = None;
        let mut is_wrong = false;
        for argument in arguments {
            if let Some(text) = argument.strip_prefix("--seed=") {
                set(&mut seed, text, "seed")?;
            } else if let Some(text) = argument.strip_prefix("--round=") {
                set(&mut round, text, "number of a round")?;
            } else if argument == "--wrong" {
                is_wrong = true;
            } else if argument.starts_with('-') {
                return Err(format!("there is no option '{argument}'"));
            } else {
                set(&mut rounds, &argument, "count of rounds")?;
            }
        }
        Ok(Options {
            seed: seed.unwrap_or(SEED),
            task: task(round, rounds, is_wrong)?,
        })
    }
}

/// Reads a number that must not have been given before.
fn set(place: &mut Option<u64>, text: &str, what: &str) -> Result<(), String> {
    if place.is_some() {
        return Err(format!("a second {what}: '{text}'"));
    }
    let number = text.parse();
    *place = Some(number.map_err(|_| format!("'{text}' is no {what}: a number below 2^64"))?);
    Ok(())
}

fn task(round: Option<u64>, rounds: Option<u64>, is_wrong: bool) -> Result<Task, String> {
    match (round, rounds.unwrap_or(ROUNDS), is_wrong) {
        (_, 0, _) => Err("0 rounds would compare nothing".to_string()),
        (Some(_), _, true) => Err("--round and --wrong do not go together".to_string()),
        (Some(_), count, false) if rounds.is_some() => {
            Err(format!("--round is one round, not {count}"))
        }
        (Some(number), _, false) => Ok(Task::Round(number)),
        (None, count, true) => Ok(Task::Wrong(count)),
        (None, count, false) => Ok(Task::Rounds(count)),
    }
}

#[cfg(test)]
mod tests {
    use super::*;

    fn parsed(text: &str) -> Result<Options, String> {
        Options::read(text.split_whitespace().map(str::to_string))
    }

    #[test]
    fn right_arguments() {
        let options = |seed, task| Ok(Options { seed, task });
        assert_eq!(parsed(""), options(1, Task::Rounds(20_000)));
        assert_eq!(parsed("7 --seed=3"), options(3, Task::Rounds(7)));
        assert_eq!(parsed("--seed=0 --round=9"), options(0, Task::Round(9)));
        assert_eq!(parsed("--round=0"), options(1, Task::Round(0)));
        assert_eq!(parsed("--wrong"), options(1, Task::Wrong(20_000)));
        let most = "--wrong --seed=18446744073709551615 5";
        assert_eq!(parsed(most), options(u64::MAX, Task::Wrong(5)));
    }

    #[test]
    fn wrong_arguments_say_what_is_wrong() {
        let wrong = [
            ("--seed", "there is no option '--seed'"),
            ("-3", "there is no option '-3'"),
            ("--seed=x", "'x' is no seed: a number below 2^64"),
            (
                "--seed=18446744073709551616",
                "'18446744073709551616' is no seed: a number below 2^64",
            ),
            (
                "--round=",
                "'' is no number of a round: a number below 2^64",
            ),
            ("many", "'many' is no count of rounds: a number below 2^64"),
            ("0", "0 rounds would compare nothing"),
            ("1 2", "a second count of rounds: '2'"),
            ("--seed=1 --seed=2", "a second seed: '2'"),
            (
                "--round=1 --wrong",
                "--round and --wrong do not go together",
            ),
            ("--round=1 5", "--round is one round, not 5"),
        ];
        for (arguments, message) in wrong {
            assert_eq!(parsed(arguments), Err(message.to_string()), "{arguments}");
        }
    }
}
