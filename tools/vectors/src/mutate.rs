//! Tests that a replay program notices a change of any one character of a list.

use crate::list::{lines_before, ListKind};
use crate::tempfile::TempFile;
use rng::Rng;
use std::ffi::OsStr;
use std::ops::Range;
use std::path::Path;
use std::process::Command;

/// Any number would do; it only has to stay the same.
const SEED: u64 = 0x4d55_5441_5445_0001;

/// A change of one character.
#[derive(Clone, Debug, PartialEq, Eq)]
pub struct Mutation {
    offset: usize,
    from: u8,
    to: u8,
    /// The changed line and column, counted from one.
    line: usize,
    column: usize,
    /// The lines of the part that it makes wrong, counted from one.
    part: Range<usize>,
}

impl Mutation {
    /// Whether the output names a line of the part that became wrong.
    fn is_named(&self, output: &str) -> bool {
        let mut lines = self.part.clone();
        lines.any(|line| output.contains(&format!(" line {line}:")))
    }
}

/// Runs the program on the unchanged list, of which it must name no line.
pub fn require_silence(program: &OsStr, file: &Path) -> Result<(), String> {
    let output = run(program, file)?;
    match output.contains(" line ") {
        false => Ok(()),
        true => Err(format!(
            "{} names a line of the unchanged {}:\n{output}",
            program.display(),
            file.display()
        )),
    }
}

/// Makes the mutations one after another and returns those that the output of
/// `replay` does not name.
pub fn unnoticed(
    kind: &ListKind,
    list: &[u8],
    count: usize,
    replay: impl Fn(&[u8]) -> Result<String, String>,
) -> Result<Vec<Mutation>, String> {
    let parts = kind.parts(list);
    let mut rng = Rng::new(SEED);
    let mut unnoticed = Vec::new();
    let mut changed = list.to_vec();
    for _ in 0..count {
        let mutation = draw(kind, list, &parts, &mut rng);
        changed[mutation.offset] = mutation.to;
        let output = replay(&changed)?;
        changed[mutation.offset] = mutation.from;
        if !mutation.is_named(&output) {
            unnoticed.push(mutation);
        }
    }
    Ok(unnoticed)
}

pub fn report(count: usize, unnoticed: &[Mutation]) -> String {
    let mut text: String = unnoticed
        .iter()
        .map(|mutation| {
            let (line, column) = (mutation.line, mutation.column);
            let (from, to) = (char::from(mutation.from), char::from(mutation.to));
            format!("unnoticed: line {line} column {column}: '{from}' became '{to}'\n")
        })
        .collect();
    text.push_str(&format!(
        "{count} mutations, {} unnoticed\n",
        unnoticed.len()
    ));
    text
}

/// Writes the list to a temporary file and runs the program on it.
pub fn run_on(program: &OsStr, list: &[u8]) -> Result<String, String> {
    let file = TempFile::new(list)?;
    run(program, file.path())
}

/// The standard output of the program. Its exit status is not judged: a replay
/// may or may not fail on a wrong list.
fn run(program: &OsStr, file: &Path) -> Result<String, String> {
    let output = Command::new(program)
        .arg(file)
        .output()
        .map_err(|error| format!("{}: {error}", program.display()))?;
    Ok(String::from_utf8_lossy(&output.stdout).into_owned())
}

/// A change that a replay has to notice. One that leaves the list right is
/// passed over: two words of no opcode, for example, can differ in raw alone.
fn draw(kind: &ListKind, list: &[u8], parts: &[Range<usize>], rng: &mut Rng) -> Mutation {
    loop {
        let offset = rng.below(list.len());
        let (from, to) = (list[offset], replacement(rng));
        let line = line_around(list, offset);
        let column = offset - line.start;
        let line = &list[line];
        if from == b'\n' || to == from || !(kind.tries)(line, column, to) {
            continue;
        }
        let rarity = (kind.rarity)(line);
        if rarity > 1 && rng.below(rarity) > 0 {
            continue;
        }
        // The parts are in order, and the first begins with the list.
        let part = parts[parts.partition_point(|part| part.end <= offset)].clone();
        let mut changed = list[part.clone()].to_vec();
        changed[offset - part.start] = to;
        if (kind.first_wrong)(&changed).is_some() {
            return Mutation {
                offset,
                from,
                to,
                line: lines_before(list, offset) + 1,
                column: column + 1,
                part: lines_before(list, part.start) + 1..lines_before(list, part.end) + 1,
            };
        }
    }
}

/// The bytes of the line that this byte lies in, without its line feed.
fn line_around(list: &[u8], offset: usize) -> Range<usize> {
    let is_feed = |&byte: &u8| byte == b'\n';
    let before = list[..offset].iter().rposition(is_feed);
    let after = list[offset..].iter().position(is_feed);
    let start = before.map_or(0, |feed| feed + 1);
    start..after.map_or(list.len(), |length| offset + length)
}

/// A hexadecimal digit or any printable character, each half of the time:
/// another digit is the change that is easiest to overlook.
fn replacement(rng: &mut Rng) -> u8 {
    match rng.below(2) {
        0 => b"0123456789abcdef"[rng.below(16)],
        _ => b' ' + rng.below(usize::from(b'~' - b' ') + 1) as u8,
    }
}

#[cfg(test)]
mod tests {
    use super::*;
    use crate::callline::{answers, CALLS};
    use crate::calllist::{segment, CallList};
    use crate::interp;
    use crate::list::WORDS;
    use crate::listing::{UNCOMPARED, WIDTH};
    use crate::manual::{stored, MANUAL};
    use crate::programs;
    use crate::rowline::{expansion, PROGRAMS};
    use crate::trace;
    use crate::traceline::TRACES;
    use crate::words;
    use std::collections::HashSet;

    fn lists() -> [(ListKind, String); 6] {
        [
            (WORDS, words::listing()),
            (PROGRAMS, programs::listing()),
            (CALLS, interp::listing()),
            (TRACES, trace::listing()),
            (MANUAL, stored("qemu.txt")),
            (MANUAL, stored("differences.txt")),
        ]
    }

    /// A replay that compares with the reference.
    fn replay(kind: &ListKind, bytes: &[u8]) -> Result<String, String> {
        let complaint = |line| format!("list line {line}: differs\n");
        Ok(kind.wrong_lines(bytes).into_iter().map(complaint).collect())
    }

    #[test]
    fn a_good_replay_notices_all() {
        for (kind, list) in lists() {
            let missed = unnoticed(&kind, list.as_bytes(), 50, |bytes| replay(&kind, bytes));
            assert_eq!(missed, Ok(Vec::new()));
        }
        assert_eq!(report(50, &[]), "50 mutations, 0 unnoticed\n");
    }

    #[test]
    fn a_silent_replay_is_found_out() {
        for (kind, list) in lists() {
            let missed = unnoticed(&kind, list.as_bytes(), 5, |_| Ok(String::new())).unwrap();
            assert_eq!(missed.len(), 5);
            assert!(report(5, &missed).ends_with("5 mutations, 5 unnoticed\n"));
        }
    }

    #[test]
    fn naming_another_line_does_not_count() {
        for (kind, list) in lists() {
            let wrong = |bytes: &[u8]| Ok(replay(&kind, bytes)?.replace(':', "0:"));
            let missed = unnoticed(&kind, list.as_bytes(), 5, wrong).unwrap();
            assert_eq!(missed.len(), 5);
        }
    }

    #[test]
    fn any_line_of_the_part_counts() {
        let list = expansion(&[0x13]) + &expansion(&[0x73]);
        let parts = PROGRAMS.parts(list.as_bytes());
        let mut rng = Rng::new(SEED);
        for _ in 0..100 {
            let drawn = draw(&PROGRAMS, list.as_bytes(), &parts, &mut rng);
            let named: Vec<usize> = (0..6)
                .filter(|line| drawn.is_named(&format!("list line {line}: differs")))
                .collect();
            let first = drawn.line <= 2;
            assert_eq!(named, if first { [1, 2] } else { [3, 4] });
        }
    }

    #[test]
    fn lines_of_any_length_are_counted() {
        let list = |calls| {
            let (program, input) = (vec![0x13], vec![5; 3]);
            answers(&CallList {
                program,
                input,
                calls,
            })
        };
        // Lines 1 to 5 and 6 to 13.
        let list = list(Vec::new()) + &list(vec![segment(1)]);
        let lines: Vec<&str> = list.lines().collect();
        let parts = CALLS.parts(list.as_bytes());
        let mut rng = Rng::new(SEED);
        for _ in 0..200 {
            let drawn = draw(&CALLS, list.as_bytes(), &parts, &mut rng);
            let line = lines[drawn.line - 1].as_bytes();
            assert_eq!(line[drawn.column - 1], drawn.from);
            assert!(drawn.to.is_ascii_hexdigit() && drawn.column > 2);
            assert!(b"lsrc".contains(&line[0]));
            assert_eq!(drawn.part, if drawn.line <= 5 { 1..6 } else { 6..14 });
        }
        assert_eq!(line_around(b"ab\ncd", 1), 0..2);
        assert_eq!(line_around(b"ab\ncd", 2), 0..2);
        assert_eq!(line_around(b"ab\ncd", 4), 3..5);
    }

    #[test]
    fn changes_of_traces_are_in_what_is_printed() {
        let list = trace::listing();
        let lines: Vec<&str> = list.lines().collect();
        let parts = TRACES.parts(list.as_bytes());
        let mut rng = Rng::new(SEED);
        let drawn = (0..200).map(|_| draw(&TRACES, list.as_bytes(), &parts, &mut rng).line);
        let drawn: Vec<&str> = drawn.map(|line| lines[line - 1]).collect();
        assert!(drawn.iter().all(|line| line.starts_with("o ")));
        let firsts = drawn.iter().filter(|line| line.split(',').count() <= 3);
        assert!((20..180).contains(&firsts.count()));
    }

    #[test]
    fn changes_of_cases_are_in_their_counts_and_results() {
        let list = stored("differences.txt");
        let lines: Vec<&str> = list.lines().collect();
        let parts = MANUAL.parts(list.as_bytes());
        let mut rng = Rng::new(SEED);
        let drawn = (0..300).map(|_| draw(&MANUAL, list.as_bytes(), &parts, &mut rng).line);
        let letters: HashSet<&str> = drawn.map(|line| &lines[line - 1][..1]).collect();
        assert_eq!(letters, ["d", "u", "g", "r", "p", "h"].into());
    }

    #[test]
    fn draws_change_a_compared_character() {
        let list = "0ff0000f Fence   .. .. .. 0 .. ................\n".repeat(3);
        // Most changes of raw leave this program right.
        let programs = expansion(&[0; 2]);
        for (kind, list) in [(WORDS, list), (PROGRAMS, programs)] {
            let parts = kind.parts(list.as_bytes());
            let mut rng = Rng::new(SEED);
            for _ in 0..2000 {
                let drawn = draw(&kind, list.as_bytes(), &parts, &mut rng);
                assert_eq!(list.as_bytes()[drawn.offset], drawn.from);
                assert!(drawn.from != drawn.to && drawn.column <= WIDTH);
                assert!(![drawn.from, drawn.to].contains(&UNCOMPARED));
                assert!(drawn.to == b' ' || drawn.to.is_ascii_graphic());
                let mut changed = list.as_bytes().to_vec();
                changed[drawn.offset] = drawn.to;
                assert_ne!(kind.wrong_lines(&changed), []);
            }
        }
    }
}
