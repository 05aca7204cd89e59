//! What a run has compared, and what differs.

use crate::reasons::REASONS;
use crate::rounds::run_round;
use crate::{Function, Lend, Lending, LIMITS};
use std::fmt;

/// The answers of a call are numbers from 0 on.
pub const ANSWERS: usize = 13;
/// How many differences are told.
const TOLD: usize = 5;
/// From this many rounds on, every answer that a function can give must come up:
/// a comparison says nothing about an answer that never did.
const FULL_RUN: u64 = 1000;

/// The answers that were compared, by function, the dispatcher's also by reason, and
/// the calls that differ.
pub struct Report {
    seed: u64,
    /// Of random calls.
    rounds: u64,
    answers: [[u64; ANSWERS]; Function::ALL.len()],
    reasons: [u64; REASONS.len()],
    differ: u64,
    first: Vec<String>,
}

impl Report {
    pub fn new(seed: u64) -> Self {
        Report {
            seed,
            rounds: 0,
            answers: Default::default(),
            reasons: Default::default(),
            differ: 0,
            first: Vec::new(),
        }
    }

    /// Makes every call of a round and compares it with the model's.
    pub fn add_round(&mut self, number: u64, call: impl Fn(&mut Lending) -> u64) {
        let seed = self.seed;
        self.rounds += u64::from(number != LIMITS);
        let mut place = 0;
        run_round(seed, number, &mut |made| {
            place += 1;
            let function = made.before.function();
            self.answers[function as usize][made.answer as usize] += 1;
            if let Lending::Dispatch(lent) = &made.before {
                let counts = self.reasons.iter_mut().zip(REASONS);
                counts.for_each(|(count, (_, is_of_it))| {
                    *count += u64::from(is_of_it(lent, made.answer));
                });
            }
            let mut found = made.before.clone();
            let answer = call(&mut found);
            if let Err(error) = made.compare(answer, &found) {
                let (name, about) = (function.name(), made.before.about());
                self.add_difference(format!(
                    "seed {seed}, round {number}, call {place}: {name} ({about}): {error}"
                ));
            }
        });
    }

    fn add_difference(&mut self, text: String) {
        self.differ += 1;
        if self.first.len() < TOLD {
            self.first.push(text);
        }
    }

    /// How many calls differ from the model.
    pub fn differ(&self) -> u64 {
        self.differ
    }

    /// The first calls that differ, as texts.
    pub fn first(&self) -> &[String] {
        &self.first
    }

    /// An error that says why the library cannot be taken to be right.
    pub fn verdict(&self) -> Result<(), String> {
        let never = self.never();
        if self.differ > 0 {
            return Err(format!("{} calls differ from the model", self.differ));
        }
        if self.rounds >= FULL_RUN && !never.is_empty() {
            return Err(format!("answers that never came up: {}", never.join(", ")));
        }
        Ok(())
    }

    /// What a function can answer and never has, and the reasons that no call had.
    fn never(&self) -> Vec<String> {
        let mut never = Vec::new();
        for function in Function::ALL {
            let counts = self.answers[function as usize];
            let missing = function.answers().iter();
            let missing = missing.filter(|&&answer| counts[answer as usize] == 0);
            never.extend(missing.map(|answer| format!("{} {answer}", function.name())));
        }
        let missing = REASONS.iter().zip(self.reasons);
        let missing = missing.filter(|(_, count)| *count == 0);
        never.extend(missing.map(|((name, _), _)| name.to_string()));
        never
    }
}

/// The table of answers, in which what a function cannot answer is a dash, and the
/// reasons.
impl fmt::Display for Report {
    fn fmt(&self, f: &mut fmt::Formatter) -> fmt::Result {
        write!(f, "{:<17}", "answer")?;
        (0..ANSWERS).try_for_each(|answer| write!(f, "{answer:>9}"))?;
        writeln!(f)?;
        for function in Function::ALL {
            write!(f, "{:<17}", function.name())?;
            for (answer, &count) in self.answers[function as usize].iter().enumerate() {
                match count == 0 && !function.answers().contains(&(answer as u64)) {
                    true => write!(f, "{:>9}", "-")?,
                    false => write!(f, "{count:>9}")?,
                }
            }
            writeln!(f)?;
        }
        for ((name, _), count) in REASONS.iter().zip(self.reasons) {
            writeln!(f, "{name:<44}{count:>9}")?;
        }
        Ok(())
    }
}

#[cfg(test)]
mod tests {
    use super::*;

    /// Some rounds in which `call` stands for the library.
    fn report(rounds: u64, call: impl Fn(&mut Lending) -> u64) -> Report {
        let mut report = Report::new(1);
        (1..=rounds).for_each(|number| report.add_round(number, &call));
        report
    }

    /// Without the calls at the limits 2 never comes up.
    #[test]
    fn a_full_run_must_have_every_answer() {
        let short = report(FULL_RUN - 1, |lending| lending.model());
        assert_eq!((short.differ(), short.verdict()), (0, Ok(())));
        let full = report(FULL_RUN, |lending| lending.model());
        let never = "answers that never came up: expand 2, segment 2, padding 2, execute 2";
        assert_eq!((full.differ(), full.verdict()), (0, Err(never.to_string())));
    }

    #[test]
    fn a_function_that_differs_is_counted_and_told() {
        let report = report(100, |lending| match lending {
            Lending::Same(_) => 7,
            _ => lending.model(),
        });
        let same = report.answers[Function::Same as usize];
        assert_eq!(report.differ(), same.iter().sum::<u64>());
        let verdict = format!("{} calls differ from the model", report.differ());
        assert_eq!(report.verdict(), Err(verdict));
        assert_eq!(report.first().len(), TOLD);
        for text in report.first() {
            assert!(text.starts_with("seed 1, round "), "{text}");
            assert!(text.contains(": same ("), "{text}");
            assert!(text.contains("): answer: found 7, wanted "), "{text}");
        }
    }

    #[test]
    fn the_table_of_answers() {
        let mut report = Report::new(1);
        report.answers[Function::Execute as usize] = [20, 1, 0, 3, 0, 5, 6, 0, 0, 0, 0, 0, 0];
        let table = report.to_string();
        let lines: Vec<&str> = table.lines().collect();
        assert_eq!(lines.len(), 1 + Function::ALL.len() + REASONS.len());
        let words = |line: &str| line.split_whitespace().map(str::to_string).collect();
        let [head, execute, start]: [Vec<String>; 3] = [lines[0], lines[6], lines[3]].map(words);
        assert_eq!(head.join(" "), "answer 0 1 2 3 4 5 6 7 8 9 10 11 12");
        assert_eq!(execute.join(" "), "execute 20 1 0 3 - 5 6 - - - - - -");
        assert_eq!(start.join(" "), "start 0 - - - - - - - - - - - -");
    }
}
