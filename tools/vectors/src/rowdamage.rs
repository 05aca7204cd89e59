//! A short expansion list with known damage, to test that a replay notices it.
//!
//! The programs are of 2 to 4 one-row instructions (several) or of one register
//! shift (shift). In order:
//!
//!  1. several: good
//!  2. shift: rd of the last stage is 00
//!  3. shift: rd of the first stage is not 00
//!  4. shift: the fourth stage says it is the fifth
//!  5. several: a jump row says `Upper`
//!  6. several: rs1 of a system row is 00
//!  7. shift: good
//!  8. several: the first row says `+1`
//!  9. several: the immediate of the first row is off by one
//! 10. shift: a raw digit of the fifth stage is wrong
//! 11. shift: the last row is left out, and not counted in the program line
//! 12. shift: a seventh row, `Shift 6` and `+6`, counted in the program line
//! 13. several: the program line counts a word too many
//! 14. shift: good
//! 15. several: the list ends in the middle of the last row

use crate::listing::{IMM, RAW, RD, RS1, STRIDE};
use crate::plan;
use crate::rowline::{KIND, OFFSET, PROGRAMS, ROW_COUNT, WORD_COUNT};

/// What a program is made of.
#[derive(Clone, Copy, Debug)]
enum Shape {
    Several,
    Shift,
}

/// What is done to a program. Rows are named by the beginning of their kind:
/// the first such row is meant.
#[derive(Clone, Copy, Debug)]
enum Damage {
    /// Nothing: the program stays good.
    Keep,
    /// The text is written into a row, from this column on.
    Text(&'static str, usize, &'static str),
    /// The number of this digit of a row goes up or down by one.
    Digit(&'static str, usize),
    RowLess,
    RowMore,
    WordMore,
    /// The last line ends in its middle, without a line feed.
    Cut,
}

use Damage::{Cut, Digit, Keep, RowLess, RowMore, Text, WordMore};
use Shape::{Several, Shift};

const PLAN: [(Shape, Damage); 15] = [
    (Several, Keep),
    (Shift, Text("Shift 5", RD.start, "00")),
    (Shift, Text("Shift 0", RD.start, "31")),
    (Shift, Text("Shift 3", KIND.start, "Shift 4")),
    (Several, Text("Jump", KIND.start, "Upper")),
    (Several, Text("System", RS1.start, "00")),
    (Shift, Keep),
    (Several, Text("", OFFSET.start, "+1")),
    (Several, Digit("", IMM.end - 1)),
    (Shift, Digit("Shift 4", RAW.end - 1)),
    (Shift, RowLess),
    (Shift, RowMore),
    (Several, WordMore),
    (Shift, Keep),
    (Several, Cut),
];

pub fn listing(list: &[u8]) -> Result<Vec<u8>, String> {
    plan::carry_out(&PROGRAMS, list, &PLAN, |&(shape, damage), program| {
        fits(shape, program).then(|| apply(damage, program))?
    })
}

fn fits(shape: Shape, program: &[u8]) -> bool {
    let rows = program.len() / STRIDE - 1;
    match shape {
        Several => (2..=4).contains(&rows),
        // A program of six rows may have them of six instructions.
        Shift => rows == 6 && row(program, "Shift 5").is_some(),
    }
}

/// The damaged program; `None` where the damage cannot be done to this one, or
/// would make it the right expansion of another.
fn apply(damage: Damage, program: &[u8]) -> Option<Vec<u8>> {
    let mut changed = program.to_vec();
    let last = program.len() - STRIDE;
    match damage {
        Keep => {}
        Text(kind, column, text) => {
            let place = row(program, kind)? + column;
            changed[place..place + text.len()].copy_from_slice(text.as_bytes());
        }
        Digit(kind, column) => {
            let digit = &mut changed[row(program, kind)? + column];
            // The last bit of a decimal digit can be flipped; a letter's cannot.
            *digit = digit.is_ascii_digit().then_some(*digit ^ 1)?;
        }
        // The counts are small: their last digit is all that changes.
        RowLess => {
            changed.truncate(last);
            changed[ROW_COUNT.end - 1] -= 1;
        }
        RowMore => {
            changed.extend_from_slice(&program[last..]);
            changed[program.len() + KIND.end - 1] += 1;
            changed[program.len() + OFFSET.end - 1] += 1;
            changed[ROW_COUNT.end - 1] += 1;
        }
        WordMore => changed[WORD_COUNT.end - 1] += 1,
        Cut => changed.truncate(program.len() - STRIDE / 2),
    }
    let right = (PROGRAMS.first_wrong)(&changed).is_none();
    (right == matches!(damage, Keep)).then_some(changed)
}

/// Where the first row of a kind begins.
fn row(program: &[u8], kind: &str) -> Option<usize> {
    let is_kind = |line: &[u8]| line[KIND].starts_with(kind.as_bytes());
    let rows = program[STRIDE..].chunks_exact(STRIDE);
    Some(STRIDE * (1 + rows.map(is_kind).position(|found| found)?))
}

#[cfg(test)]
mod tests {
    use super::*;
    use crate::listing::WIDTH;
    use crate::programs;
    use crate::rowline::expansion;

    /// addi x10,x0,5; jal x1,.+2048; ecall
    const SEVERAL: [u32; 3] = [0x0050_0513, 0x0010_00ef, 0x0000_0073];
    /// sll x3,x1,x2
    const SHIFT: [u32; 1] = [0x0020_91b3];

    fn damaged() -> Vec<u8> {
        listing(programs::listing().as_bytes()).unwrap()
    }

    /// The characters that a step of the plan, counted from one, makes of
    /// others: line, column and character. The length in bytes comes first.
    fn changes(step: usize) -> (usize, Vec<(usize, usize, char)>) {
        let (shape, damage) = PLAN[step - 1];
        let good = match shape {
            Several => expansion(&SEVERAL),
            Shift => expansion(&SHIFT),
        };
        assert!(fits(shape, good.as_bytes()), "step {step}");
        let changed = apply(damage, good.as_bytes()).expect("the damage can be done");
        let places = (0..).zip(good.bytes().zip(&changed));
        let differing = places
            .filter(|(_, (kept, given))| kept != *given)
            .map(|(place, (_, &given))| (place / STRIDE, place % STRIDE, char::from(given)))
            .collect();
        (changed.len(), differing)
    }

    #[test]
    fn each_damage_is_where_it_is_meant_to_be() {
        let (several, shift) = (4 * STRIDE, 7 * STRIDE);
        for step in [1, 7, 14] {
            assert_eq!(changes(step).1, [], "step {step}");
        }
        assert_eq!(changes(2), (shift, vec![(6, 18, '0')]));
        assert_eq!(changes(3), (shift, vec![(1, 17, '3'), (1, 18, '1')]));
        assert_eq!(changes(4), (shift, vec![(4, 15, '4')]));
        let upper = (9..).zip("Upper".chars());
        let upper = upper.map(|(column, letter)| (2, column, letter)).collect();
        assert_eq!(changes(5), (several, upper));
        assert_eq!(changes(6), (several, vec![(3, 20, '0')]));
        assert_eq!(changes(8), (several, vec![(1, 29, '1')]));
        assert_eq!(changes(9), (several, vec![(1, 46, '4')]));
        assert_eq!(changes(10), (shift, vec![(5, 7, '2')]));
        assert_eq!(changes(11), (shift - STRIDE, vec![(0, 24, '5')]));
        assert_eq!(changes(12), (shift + STRIDE, vec![(0, 24, '7')]));
        assert_eq!(changes(13), (several, vec![(0, 12, '4')]));
        assert_eq!(changes(15), (several - STRIDE / 2, vec![]));
    }

    #[test]
    fn the_row_too_many() {
        let changed = apply(RowMore, expansion(&SHIFT).as_bytes()).unwrap();
        let text = String::from_utf8(changed).unwrap();
        assert!(text.ends_with("002091b3 Shift 6 03 01 02 1 +6 0000000000000000\n"));
    }

    #[test]
    fn three_programs_are_good_and_all_but_the_last_are_whole() {
        let output = damaged();
        let parts = PROGRAMS.parts(&output);
        let programs: Vec<&[u8]> = parts.into_iter().map(|part| &output[part]).collect();
        let good = |program: &&[u8]| (PROGRAMS.first_wrong)(program).is_none();
        let expected: Vec<bool> = (1..=15).map(|step| [1, 7, 14].contains(&step)).collect();
        assert_eq!(programs.iter().map(good).collect::<Vec<_>>(), expected);
        assert_eq!(output.len() % STRIDE, STRIDE / 2);
        for program in programs.iter().rev().skip(1) {
            let count = std::str::from_utf8(&program[ROW_COUNT]).unwrap();
            assert_eq!(count.parse(), Ok(program.len() / STRIDE - 1));
            assert!(program.chunks(STRIDE).all(|line| line[WIDTH] == b'\n'));
        }
    }

    #[test]
    fn a_short_list_is_refused() {
        let list = expansion(&SEVERAL) + &expansion(&SHIFT);
        let message = listing(list.as_bytes()).unwrap_err();
        assert!(message.contains("allows (Shift, Text("), "{message}");
    }
}
