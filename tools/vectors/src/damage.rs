//! A short list with known damage, to test that a replay notices it.

use crate::list;
use crate::listing::{holds, CLASS, FUNCT3, FUNCT7, IMM, RAW, RD, RS1, RS2, UNCOMPARED, WIDTH};
use std::collections::HashSet;

/// What is done to one line.
#[derive(Clone, Copy, Debug)]
enum Damage {
    /// Nothing: the line stays good.
    Keep,
    /// The digit at this place becomes another digit.
    Digit(usize),
    /// The first letter of the class becomes another letter.
    Letter,
    /// A digit of raw becomes `g`, which is not hexadecimal.
    NotHexadecimal,
    /// A letter among the digits of raw becomes upper-case.
    UpperCase,
    /// The line ends in its middle, without a line feed.
    Cut,
}

/// One line each. The first and the eighth stay good, the others are wrong.
const PLAN: [Damage; 14] = [
    Damage::Keep,
    Damage::Digit(RAW.start),
    Damage::Letter,
    Damage::Digit(RD.end - 1),
    Damage::Digit(RS1.end - 1),
    Damage::Digit(RS2.end - 1),
    Damage::Digit(FUNCT3.end - 1),
    Damage::Keep,
    Damage::Digit(FUNCT7.end - 1),
    Damage::Digit(IMM.start),
    Damage::Digit(IMM.end - 1),
    Damage::NotHexadecimal,
    Damage::UpperCase,
    Damage::Cut,
];

/// Each step of the plan takes the first line that it can be done to and whose
/// class has not been used yet.
pub fn listing(list: &[u8]) -> Result<Vec<u8>, String> {
    let mut used: HashSet<&[u8]> = HashSet::new();
    let mut output = Vec::new();
    for damage in PLAN {
        let (line, damaged) = list::lines(list)
            .filter(|line| !used.contains(&line[CLASS]))
            .find_map(|line| Some((line, apply(damage, line)?)))
            .ok_or(format!("no line of an unused class allows {damage:?}"))?;
        used.insert(&line[CLASS]);
        output.extend(damaged);
    }
    Ok(output)
}

/// The damaged line with its line feed; `None` where the damage cannot be done
/// to this line, or would make it the right line of another word.
fn apply(damage: Damage, line: &[u8]) -> Option<Vec<u8>> {
    let mut changed = line.to_vec();
    match damage {
        Damage::Keep => {}
        Damage::Digit(place) => changed[place] = other_digit(line[place])?,
        Damage::Letter => changed[CLASS.start] = b'Z',
        Damage::NotHexadecimal => changed[RAW.end - 1] = b'g',
        Damage::UpperCase => {
            let place = RAW.rev().find(|&place| line[place].is_ascii_lowercase())?;
            changed[place].make_ascii_uppercase();
        }
        Damage::Cut => {
            changed.truncate(WIDTH / 2);
            return Some(changed);
        }
    }
    if holds(&changed) != matches!(damage, Damage::Keep) {
        return None;
    }
    changed.push(b'\n');
    Some(changed)
}

/// Another digit that is one in base ten and in base sixteen, and small enough
/// for funct3.
fn other_digit(digit: u8) -> Option<u8> {
    match digit {
        UNCOMPARED => None,
        b'0' => Some(b'1'),
        _ => Some(b'0'),
    }
}

#[cfg(test)]
mod tests {
    use super::*;
    use crate::words;

    fn damaged() -> Vec<u8> {
        listing(words::listing().as_bytes()).unwrap()
    }

    #[test]
    fn two_lines_are_good_and_twelve_wrong() {
        let output = damaged();
        let good: Vec<bool> = output.split(|&byte| byte == b'\n').map(holds).collect();
        let expected: Vec<bool> = (1..=14).map(|line| line == 1 || line == 8).collect();
        assert_eq!(good, expected);
    }

    #[test]
    fn the_last_line_is_cut() {
        let output = damaged();
        let last = output.split(|&byte| byte == b'\n').next_back().unwrap();
        assert_eq!(last.len(), WIDTH / 2);
    }

    #[test]
    fn one_character_differs() {
        let list = words::listing();
        let output = damaged();
        for line in output.split(|&byte| byte == b'\n').take(PLAN.len() - 1) {
            let least = list::lines(list.as_bytes())
                .map(|good| good.iter().zip(line).filter(|(a, b)| a != b).count())
                .min();
            assert!(least <= Some(1), "{}", String::from_utf8_lossy(line));
        }
    }

    #[test]
    fn a_short_list_is_refused() {
        let list = words::listing();
        let short = &list.as_bytes()[..3 * (WIDTH + 1)];
        assert!(listing(short).unwrap_err().contains("no line"));
    }
}
