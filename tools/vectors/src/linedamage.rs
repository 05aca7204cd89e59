//! Damages lines of a part of a list whose lines have any length.

#[cfg(test)]
use crate::list::fed_lines;
use crate::list::ListKind;
use std::str;

/// What is done to a part. The first text of those with several, or the only
/// one, means the first line that begins with it.
#[derive(Clone, Copy, Debug)]
pub enum Damage {
    /// Nothing: the part stays good.
    Keep,
    /// Nothing, to a part that has such a line.
    KeepWith(&'static str),
    /// The lowest bit of this number of a line, counted from one, is flipped.
    /// The numbers are hexadecimal and parted by spaces.
    Flip(&'static str, usize),
    /// The second text becomes the third, in the first line that has it.
    Text(&'static str, &'static str, &'static str),
    /// A line that is not the last is left out.
    Less(&'static str),
    Twice(&'static str),
    /// A line changes places with the next.
    Late(&'static str),
    /// A line, the second text, is put before.
    Before(&'static str, &'static str),
    /// This last line is added.
    Last(&'static str),
    /// The last line, which begins so, is left out.
    Short(&'static str),
    /// The last line ends in its middle, without a line feed.
    Cut,
}

use Damage::{Before, Cut, Flip, Keep, KeepWith, Last, Late, Less, Short, Text, Twice};

/// The damaged part; `None` where the damage cannot be done to this one, or
/// would make it another right part.
pub fn apply(kind: &ListKind, damage: Damage, part: &[u8]) -> Option<Vec<u8>> {
    let text = str::from_utf8(part).ok()?;
    let mut lines: Vec<String> = text.split_inclusive('\n').map(String::from).collect();
    change(damage, &mut lines)?;
    let changed = lines.concat().into_bytes();
    let right = (kind.first_wrong)(&changed).is_none();
    (right == matches!(damage, Keep | KeepWith(_))).then_some(changed)
}

fn change(damage: Damage, lines: &mut Vec<String>) -> Option<()> {
    let last = lines.len() - 1;
    let first = |beginning| lines.iter().position(|line| line.starts_with(beginning));
    match damage {
        Keep => {}
        KeepWith(beginning) => return first(beginning).map(|_| ()),
        Flip(beginning, number) => {
            let place = first(beginning)?;
            lines[place] = flipped(&lines[place], number)?;
        }
        Text(beginning, from, to) => {
            let has = |line: &&mut String| line.starts_with(beginning) && line.contains(from);
            let line = lines.iter_mut().find(has)?;
            *line = line.replacen(from, to, 1);
        }
        Less(beginning) => {
            let place = first(beginning).filter(|&place| place != last)?;
            lines.remove(place);
        }
        Twice(beginning) => {
            let place = first(beginning)?;
            lines.insert(place, lines[place].clone());
        }
        Late(beginning) => {
            let place = first(beginning).filter(|&place| place != last)?;
            lines.swap(place, place + 1);
        }
        Before(beginning, line) => lines.insert(first(beginning)?, line.to_string()),
        Last(line) => lines.push(line.to_string()),
        Short(beginning) => return lines.pop_if(|line| line.starts_with(beginning)).map(|_| ()),
        Cut => {
            let half = lines[last].len() / 2;
            lines[last].truncate(half);
        }
    }
    Some(())
}

/// For each part of a list its first wrong line, counted from one, and what stands
/// there, with its line feed if it has one.
#[cfg(test)]
pub fn wrong_lines(kind: &ListKind, list: &[u8]) -> Vec<Option<(usize, String)>> {
    let wrong = |part| {
        let part: &[u8] = &list[part];
        let line = (kind.first_wrong)(part)?;
        let text = fed_lines(part).nth(line).unwrap_or(b"");
        Some((1 + line, String::from_utf8(text.to_vec()).unwrap()))
    };
    kind.parts(list).into_iter().map(wrong).collect()
}

/// Holds the wrong lines to those expected, by their part, counted from one.
#[cfg(test)]
pub fn expect_wrong(
    found: &[Option<(usize, String)>],
    expected: &[(usize, usize, &str)],
    good: &[usize],
) {
    for &(part, line, text) in expected {
        assert_eq!(found[part - 1], Some((line, text.to_string())), "{part}");
    }
    for &part in good {
        assert_eq!(found[part - 1], None, "{part}");
    }
}

/// The line with the lowest bit of one of its numbers flipped.
fn flipped(line: &str, number: usize) -> Option<String> {
    let mut words: Vec<String> = line.trim_end().split(' ').map(String::from).collect();
    let word = words.get_mut(number)?;
    *word = format!("{:x}", u64::from_str_radix(word, 16).ok()? ^ 1);
    Some(words.join(" ") + "\n")
}
