//! Runs a program on random inputs and compares what it prints with what `trace`
//! must print.

use crate::answer::answer;
use crate::list::{fed_lines, first_difference};
use crate::tempfile::TempFile;
use crate::trace::random;
use rng::Rng;
use std::ffi::OsStr;
use std::io::{ErrorKind, Write};
use std::process::{Command, Stdio};

/// The differences that are told; the others are only counted.
const MOST_TOLD: usize = 5;
/// The characters of a wrong line that are shown.
const MOST_SHOWN: usize = 400;

/// What a program did with an input.
pub struct Printed {
    pub output: Vec<u8>,
    /// How it ended, if not by itself.
    pub broken_off: Option<String>,
}

/// How many inputs must be answered in each way, and how many were not.
#[derive(Debug, Default, PartialEq, Eq)]
pub struct Tally {
    accepted: usize,
    refused_0: usize,
    refused_1: usize,
    pub differ: usize,
}

/// The counts, and a text about the first differences.
pub struct Comparison {
    pub tally: Tally,
    pub told: String,
}

impl Tally {
    fn count(&mut self, right: &[u8]) {
        match right {
            b"refused,0\n" => self.refused_0 += 1,
            b"refused,1\n" => self.refused_1 += 1,
            _ => self.accepted += 1,
        }
    }

    /// A run in which nothing was accepted, or nothing refused, shows too little.
    fn is_enough(&self) -> bool {
        self.accepted > 0 && self.refused_0 + self.refused_1 > 0
    }

    fn line(&self) -> String {
        let inputs = self.accepted + self.refused_0 + self.refused_1;
        format!(
            "{inputs} inputs: {} accepted, {} refused,0, {} refused,1; {} differ\n",
            self.accepted, self.refused_0, self.refused_1, self.differ
        )
    }
}

impl Comparison {
    pub fn is_good(&self) -> bool {
        self.tally.differ == 0 && self.tally.is_enough()
    }

    pub fn report(&self) -> String {
        let too_few = match self.tally.is_enough() {
            true => "",
            false => "too few inputs: none was accepted, or none refused\n",
        };
        format!("{}{too_few}{}", self.told, self.tally.line())
    }
}

/// Compares on so many inputs. The error is one of running the program.
pub fn compare(
    count: usize,
    seed: u64,
    program: impl Fn(&[u8]) -> Result<Printed, String>,
) -> Result<Comparison, String> {
    let mut rng = Rng::new(seed);
    let mut tally = Tally::default();
    let mut told = String::new();
    for number in 1..=count {
        let input = random(&mut rng);
        let right = answer(&input);
        tally.count(&right);
        let Some(difference) = difference(&program(&input)?, &right) else {
            continue;
        };
        tally.differ += 1;
        if tally.differ <= MOST_TOLD {
            let file = TempFile::new(&input)?.keep();
            let file = file.display();
            told += &format!("seed {seed}, input {number}, kept in {file}: {difference}\n");
        }
    }
    Ok(Comparison { tally, told })
}

/// What is wrong, or `None`.
fn difference(printed: &Printed, right: &[u8]) -> Option<String> {
    if let Some(ending) = &printed.broken_off {
        return Some(ending.clone());
    }
    let kept: Vec<&[u8]> = fed_lines(&printed.output).collect();
    let text = String::from_utf8_lossy(right);
    let line = first_difference(&kept, &text)?;
    let wanted = fed_lines(right).nth(line);
    Some(format!(
        "line {} is {}, not {}",
        line + 1,
        shown(kept.get(line).copied()),
        shown(wanted)
    ))
}

/// A line with its line feed, which may be what is missing.
fn shown(line: Option<&[u8]>) -> String {
    match line {
        None => "missing".to_string(),
        Some(bytes) => {
            let text = String::from_utf8_lossy(bytes);
            format!("{:?}", text.chars().take(MOST_SHOWN).collect::<String>())
        }
    }
}

/// Runs the program with these bytes on standard input. They are few enough for
/// the pipe to take them before the program reads. Its exit status is not
/// judged: 01 says nothing of it.
pub fn run_with(program: &OsStr, input: &[u8]) -> Result<Printed, String> {
    let failure = |error| format!("{}: {error}", program.display());
    let mut child = Command::new(program)
        .stdin(Stdio::piped())
        .stdout(Stdio::piped())
        .spawn()
        .map_err(failure)?;
    let mut pipe = child.stdin.take().expect("standard input is piped");
    match pipe.write_all(input) {
        // It may end before it has read everything.
        Err(error) if error.kind() != ErrorKind::BrokenPipe => return Err(failure(error)),
        _ => drop(pipe),
    }
    let output = child.wait_with_output().map_err(failure)?;
    Ok(Printed {
        output: output.stdout,
        broken_off: match output.status.code() {
            Some(_) => None,
            None => Some(format!("ended by {}", output.status)),
        },
    })
}

#[cfg(test)]
mod tests {
    use super::*;
    use crate::answer::{Run, MAX_TRACE_CYCLES, MOST_BYTES};
    use std::fs;
    use std::path::Path;

    const COUNT: usize = 400;
    const SEED: u64 = 1;
    /// How many inputs must tell a wrong program from a right one.
    const ENOUGH: usize = 2;
    const RAM: usize = 256;

    /// What a wrong program prints for an input, given the right text.
    type Wrong = fn(&[u8], String) -> String;

    const WRONG: [(&str, Wrong); 20] = [
        ("no last line feed", |_, right| right.trim_end().to_string()),
        ("a line feed too many", |_, right| right + "\n"),
        ("carriage returns", |_, right| right.replace('\n', "\r\n")),
        ("a comma too many", |_, right| right.replacen(',', ",,", 1)),
        ("commas at the ends", |_, right| right.replace('\n', ",\n")),
        ("spaces", |_, right| right.replace(',', ", ")),
        ("the live count is one more", |_, right| {
            with_head(&right, |[live, records, output]| {
                [live + 1, records, output]
            })
        }),
        ("a power of two above the live count", |_, right| {
            with_head(&right, |[live, _, output]| {
                [live, (live + 1).next_power_of_two(), output]
            })
        }),
        ("live records only", |_, right| {
            with_head(&right, |[live, _, output]| [live, live, output])
        }),
        ("no record for no cycle", |_, right| {
            match right.strip_prefix("0,1,") {
                Some(_) => "0,0,0\n".to_string(),
                None => right,
            }
        }),
        ("numbers with a sign", |_, right| {
            let signed = |number: &str| number.parse::<u64>().map(|word| (word as i64).to_string());
            let line = |line: &str| {
                let numbers = line
                    .split(',')
                    .map(|text| signed(text).unwrap_or(text.to_string()));
                numbers.collect::<Vec<String>>().join(",") + "\n"
            };
            right.lines().map(line).collect()
        }),
        ("refused,0 for refused,1", |_, right| {
            right.replace("refused,1", "refused,0")
        }),
        ("refused,1 for refused,0", |_, right| {
            right.replace("refused,0", "refused,1")
        }),
        ("256 cycles are refused", |input, right| {
            match Run::read(input) {
                Some(run) if run.max_cycles == MAX_TRACE_CYCLES => "refused,0\n".to_string(),
                _ => right,
            }
        }),
        ("bytes after the last word are dropped", |input, _| {
            text(&input[..input.len() / 4 * 4])
        }),
        ("more than 4,096 bytes are cut", |input, _| {
            text(&input[..input.len().min(MOST_BYTES)])
        }),
        ("4,096 bytes are refused", |input, right| {
            match input.len() {
                MOST_BYTES => "refused,0\n".to_string(),
                _ => right,
            }
        }),
        ("twice the count of input words wraps", |input, right| {
            let mut input = input.to_vec();
            match input.get_mut(7) {
                Some(highest) => *highest &= 0x7f,
                None => return right,
            }
            text(&input)
        }),
        ("the high half comes first", |input, right| {
            with_input(input, right, |words| {
                words.iter().map(|word| word.rotate_left(32)).collect()
            })
        }),
        ("input past the RAM begins anew", |input, right| {
            with_input(input, right, |words| {
                let place = |at: usize| words.get(at + RAM).unwrap_or(&words[at]);
                (0..words.len()).map(|at| *place(at)).collect()
            })
        }),
    ];

    fn text(input: &[u8]) -> String {
        String::from_utf8(answer(input)).unwrap()
    }

    /// The text with other counts, and as many records as they say.
    fn with_head(right: &str, change: impl Fn([usize; 3]) -> [usize; 3]) -> String {
        let mut lines = right.lines();
        let head: Result<Vec<usize>, _> =
            lines.next().unwrap().split(',').map(str::parse).collect();
        let Ok(numbers) = head else {
            return right.to_string();
        };
        let [live, count, output] = change(numbers.try_into().unwrap());
        let records: Vec<&str> = lines.collect();
        let last = records[records.len() - 1];
        let records = records.iter().chain(std::iter::repeat(&last)).take(count);
        let records = records.map(|line| format!("{line}\n"));
        format!("{live},{count},{output}\n{}", records.collect::<String>())
    }

    /// The text for another input of the same program.
    fn with_input(input: &[u8], right: String, change: fn(&[u64]) -> Vec<u64>) -> String {
        match Run::read(input) {
            None => right,
            Some(run) => text(
                &Run {
                    input: change(&run.input),
                    ..run
                }
                .bytes(),
            ),
        }
    }

    fn printed(output: impl Into<Vec<u8>>) -> Result<Printed, String> {
        Ok(Printed {
            output: output.into(),
            broken_off: None,
        })
    }

    /// The files that the text says are kept, removed.
    fn kept_inputs(told: &str) -> Vec<Vec<u8>> {
        let names = told.lines().map(|line| {
            let (_, rest) = line.split_once(" kept in ").unwrap();
            Path::new(rest.split_once(": ").unwrap().0)
        });
        let read = |name: &Path| {
            let bytes = fs::read(name).unwrap();
            fs::remove_file(name).unwrap();
            bytes
        };
        names.map(read).collect()
    }

    #[test]
    fn a_right_program_passes() {
        let comparison = compare(COUNT, SEED, |input| printed(answer(input))).unwrap();
        assert!(comparison.is_good());
        assert_eq!(comparison.told, "");
        assert!(comparison.report().starts_with("400 inputs: "));
        assert!(comparison.report().ends_with(" refused,1; 0 differ\n"));
    }

    #[test]
    fn wrong_programs_are_found() {
        for (name, wrong) in WRONG {
            let program = |input: &[u8]| printed(wrong(input, text(input)));
            let comparison = compare(COUNT, SEED, program).unwrap();
            let differ = comparison.tally.differ;
            let inputs = kept_inputs(&comparison.told);
            assert!(
                differ >= ENOUGH && !comparison.is_good(),
                "{name}: {differ}"
            );
            assert_eq!(inputs.len(), differ.min(MOST_TOLD));
            for input in inputs {
                assert_ne!(wrong(&input, text(&input)), text(&input), "{name}");
            }
        }
    }

    #[test]
    fn a_difference_is_told() {
        let program = |input: &[u8]| match answer(input).as_slice() {
            b"refused,1\n" => printed("refused,0"),
            right => printed(right),
        };
        let comparison = compare(COUNT, SEED, program).unwrap();
        kept_inputs(&comparison.told);
        let (differ, told) = (comparison.tally.differ, &comparison.told);
        assert_eq!(differ, comparison.tally.refused_1);
        let line = told.lines().next().unwrap();
        assert!(line.starts_with("seed 1, input "), "{line}");
        let difference = r#": line 1 is "refused,0", not "refused,1\n""#;
        assert!(line.ends_with(difference), "{line}");
        assert!(comparison
            .report()
            .ends_with(&format!("; {differ} differ\n")));
    }

    #[test]
    fn lines_missing_and_too_many_are_told() {
        let of = |output: &str, right: &str| {
            let printed = printed(output).unwrap();
            difference(&printed, right.as_bytes())
        };
        assert_eq!(of("a\nb\n", "a\nb\n"), None);
        let missing = of("a\n", "a\nb\n");
        assert_eq!(missing.as_deref(), Some(r#"line 2 is missing, not "b\n""#));
        let surplus = of("a\nb\n", "a\n");
        assert_eq!(surplus.as_deref(), Some(r#"line 2 is "b\n", not missing"#));
    }

    #[test]
    fn a_program_that_is_broken_off_differs() {
        let killed = Printed {
            output: b"a\n".to_vec(),
            broken_off: Some("ended by signal".to_string()),
        };
        assert_eq!(
            difference(&killed, b"a\n").as_deref(),
            Some("ended by signal")
        );
    }

    #[test]
    fn one_input_is_too_few() {
        let comparison = compare(1, SEED, |input| printed(answer(input))).unwrap();
        assert!(!comparison.is_good());
        assert!(comparison.report().starts_with("too few inputs"));
    }

    #[test]
    fn programs_are_given_the_input() {
        let echoed = run_with(OsStr::new("cat"), b"a\0b").unwrap();
        assert_eq!(echoed.output, b"a\0b");
        // It reads nothing.
        let silent = run_with(OsStr::new("true"), &[7; 4200]).unwrap();
        assert_eq!((silent.output, silent.broken_off), (Vec::new(), None));
        let message = run_with(OsStr::new("no-such-program"), b"").err().unwrap();
        assert!(message.starts_with("no-such-program: "), "{message}");
    }
}
