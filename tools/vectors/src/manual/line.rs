//! The lines of a list of cases about the manual: a letter, then hexadecimal
//! numbers without leading zeros, parted by single spaces.
//!
//! - `a`, `d`, `u`: a case on which recorder and manual agree, or differ, or
//!   which RV64I does not define; the numbers of words and of cycles
//! - `w`: a word
//! - `x`, `m`: a register or a RAM word before it that is not zero; number and
//!   value
//!
//! Then of `a` what the manual's machine has changed:
//!
//! - `g`, `r`: a register or a RAM word after it; number and value
//! - `t`: last, of a branch, whether it is taken
//!
//! and of `d` and `u` one line. Its last numbers are what the reference has and, of
//! `d`, what the manual has:
//!
//! - `g`, `r`: a register cell, which is one of 64, or a RAM word; its number first
//! - `p`: the next row; `ffffffffffffffff` is none of the program
//! - `h`: whether the machine has halted

use super::case::{Case, State};
use crate::callline::{all_numbers, changes, is_digit_for_digit, line};
use crate::list::{fed_lines, first_difference, ListKind};
use magnetar_reference::interp::StreamCursor;

/// The lists of cases about the manual.
pub const MANUAL: ListKind = ListKind {
    width: None,
    begins: |line| letter(line).is_some(),
    first_wrong,
    tries,
    rarity: |_| 1,
};

/// What is shown of the machine after a case.
#[derive(Clone, Copy, Debug, PartialEq, Eq)]
pub enum Place {
    Register(u64),
    Ram(u64),
    Row,
    Halted,
}

impl Place {
    fn letter(self) -> char {
        match self {
            Place::Register(_) => 'g',
            Place::Ram(_) => 'r',
            Place::Row => 'p',
            Place::Halted => 'h',
        }
    }

    /// What the reference has there. `None`: there is no such cell.
    pub fn in_reference(self, cursor: &StreamCursor) -> Option<u64> {
        match self {
            Place::Register(number) => cursor.st.regs.get(number as usize).copied(),
            Place::Ram(number) => cursor.st.ram.get(number as usize).copied(),
            Place::Row => Some(cursor.st.micro_pc as u64),
            Place::Halted => Some(cursor.st.halted.into()),
        }
    }

    /// What qemu has there. It has no rows, and no cells but x0 to x31.
    pub fn in_qemu(self, state: &State) -> Option<u64> {
        match self {
            Place::Register(number) => state.registers.get(number as usize).copied(),
            Place::Ram(number) => state.ram.get(number as usize).copied(),
            Place::Row => None,
            // It went on, or there would be no state.
            Place::Halted => Some(0),
        }
    }

    /// The line of the values.
    pub fn line(self, values: &[u64]) -> String {
        match self {
            Place::Register(number) | Place::Ram(number) => {
                line(self.letter(), &[&[number], values].concat())
            }
            Place::Row | Place::Halted => line(self.letter(), values),
        }
    }

    /// The place and the values of a line.
    fn read(text: &[u8]) -> Option<(Place, Vec<u64>)> {
        let letter = char::from(*text.first()?);
        let mut values = all_numbers(letter, text)?;
        let place = match letter {
            'g' => Place::Register(values.remove(0)),
            'r' => Place::Ram(values.remove(0)),
            'p' => Place::Row,
            'h' => Place::Halted,
            _ => return None,
        };
        Some((place, values))
    }
}

/// The lines of a case on which recorder and manual agree: this state comes of it.
pub fn agreeing(case: &Case, state: &State) -> String {
    let taken = case.branches().then(|| line('t', &[state.taken.into()]));
    case.head('a')
        + &changes('g', &case.registers(), &state.registers)
        + &changes('r', &case.ram(), &state.ram)
        + &taken.unwrap_or_default()
}

/// The lines of a case on which they differ.
pub fn differing(case: &Case, place: Place, reference: u64, manual: u64) -> String {
    case.head('d') + &place.line(&[reference, manual])
}

/// The lines of a case that RV64I does not define.
pub fn undefined(case: &Case, place: Place, reference: u64) -> String {
    case.head('u') + &place.line(&[reference])
}

/// The letter of a case that begins with this line.
fn letter(line: &[u8]) -> Option<char> {
    let letter = char::from(*line.first()?);
    "adu".contains(letter).then_some(letter)
}

fn first_wrong(part: &[u8]) -> Option<usize> {
    let kept: Vec<&[u8]> = fed_lines(part).collect();
    let Some(letter) = letter(part) else {
        return Some(0);
    };
    let (case, behind) = match Case::read(letter, &kept) {
        Ok(found) => found,
        Err(line) => return Some(line),
    };
    let right = match letter {
        'a' => agreeing(&case, &case.state_in_reference()),
        _ => match shown(letter, &case, kept.get(behind).copied()) {
            Some(lines) => lines,
            // The line of the place is missing or says nothing that could be right.
            None => return first_difference(&kept[..behind], &case.head(letter)).or(Some(behind)),
        },
    };
    first_difference(&kept, &right)
}

/// The right lines of a case `d` or `u`, of which the place and the manual's value
/// come from this line. The latter is only known not to be the reference's.
fn shown(letter: char, case: &Case, text: Option<&[u8]>) -> Option<String> {
    let (place, values) = Place::read(text?)?;
    let reference = place.in_reference(&case.run_reference().0)?;
    match (letter, values.as_slice()) {
        ('d', &[_, manual]) if manual != reference => {
            Some(differing(case, place, reference, manual))
        }
        ('u', &[_]) => Some(undefined(case, place, reference)),
        _ => None,
    }
}

/// Digits become other digits. What is run is left out: not every bit of it must
/// come into the result.
fn tries(line: &[u8], column: usize, to: u8) -> bool {
    !matches!(line[0], b'w' | b'x' | b'm') && is_digit_for_digit(line, column, to)
}

#[cfg(test)]
mod tests {
    use super::*;

    const ADD: &str = "a 1 1\nw 2081b3\nx 1 1\nx 2 2\ng 3 3\n";
    const STORE: &str = "a 1 1\nw 1003a3\nx 1 5\nm 0 1\nr 0 500000000000001\n";
    const BRANCH: &str = "a 1 1\nw 463\nt 1\n";
    const SRAI: &str = "d 1 1\nw 4200d093\nx 1 8000000000000000\ng 1 80000000 ffffffff80000000\n";
    const JUMP: &str = "d 2 1\nw 100006f\nw 13\np 0 ffffffffffffffff\n";
    const FENCE: &str = "d 1 1\nw ff0000f\nh 1 0\n";
    const UNDEFINED: &str = "u 1 1\nw 104023\nx 1 5\nr 0 5\n";

    fn wrong(text: &str) -> Option<usize> {
        first_wrong(text.as_bytes())
    }

    #[test]
    fn good_cases() {
        for case in [ADD, STORE, BRANCH, SRAI, JUMP, FENCE, UNDEFINED] {
            assert_eq!(wrong(case), None, "{case}");
        }
        // addi x0,x0,5 changes nothing that the manual has.
        assert_eq!(wrong("a 1 1\nw 500013\n"), None);
    }

    #[test]
    fn the_first_wrong_line_is_found() {
        let changes = [
            (ADD, "a 1", "a 2", 2),
            (ADD, "a 1 1", "a 1 01", 0),
            (ADD, "a 1", "b 1", 0),
            (ADD, "w 2", "w 02", 1),
            (ADD, "g 3 3", "g 3 2", 4),
            (ADD, "g 3 3", "g 3 +3", 4),
            (ADD, "g 3 3\n", "", 4),
            (ADD, "g 3 3\n", "g 3 3", 4),
            (ADD, "g 3 3\n", "g 3 3\ng 4 0\n", 5),
            (ADD, "g 3 3\n", "g 3 3\nt 0\n", 5),
            (STORE, "r 0 5", "r 0 4", 4),
            (STORE, "r 0", "r 1", 4),
            (BRANCH, "t 1", "t 0", 2),
            (BRANCH, "t 1\n", "", 2),
            (SRAI, "g 1 80000000", "g 1 80000001", 3),
            (SRAI, "g 1 ", "g 40 ", 3),
            (SRAI, "ffffffff80000000", "80000000", 3),
            (SRAI, " ffffffff80000000", "", 3),
            (SRAI, "w 4", "w 04", 1),
            (SRAI, "g 1 80000000 f", "q 1 80000000 f", 3),
            (JUMP, "p 0", "p 1", 3),
            (JUMP, "ffffffffffffffff", "0", 3),
            (FENCE, "h 1 0", "h 1 1", 2),
            (FENCE, "h 1 0\n", "h 1 0\nh 1 0\n", 3),
            (FENCE, "h 1 0\n", "", 2),
            (UNDEFINED, "r 0 5", "r 0 6", 3),
            (UNDEFINED, "r 0 5", "r 0 5 6", 3),
            (UNDEFINED, "r 0 5", "r 100 5", 3),
        ];
        for (case, from, to, line) in changes {
            assert!(case.contains(from), "{from}");
            assert_eq!(
                wrong(&case.replacen(from, to, 1)),
                Some(line),
                "{from} {to}"
            );
        }
        assert_eq!(wrong(""), Some(0));
    }

    /// A list does not know what the manual says, only that it is something else.
    #[test]
    fn the_manual_may_say_anything_else() {
        assert_eq!(wrong(&SRAI.replace("ffffffff80000000", "5")), None);
        assert_eq!(wrong(&JUMP.replace("ffffffffffffffff", "1")), None);
    }

    #[test]
    fn only_digits_of_what_must_show_are_tried() {
        let tried = |line, to| MANUAL.tried(line, to);
        assert_eq!(tried("a 1 10\n", b'f'), [2, 4, 5]);
        assert_eq!(tried("d 1 1\n", b'g'), []);
        assert_eq!(tried("p 2 a\n", b'0'), [2, 4]);
        for line in ["w 13\n", "x 1 5\n", "m 1 5\n"] {
            assert_eq!(tried(line, b'0'), [], "{line}");
        }
    }
}
