//! A program of a few words with registers and RAM before it, and what the
//! reference makes of it.

use crate::callline::{line, numbers};
use magnetar_reference::expand::expand_program;
use magnetar_reference::interp::{CycleRecord, StreamCursor};
use std::ops::Range;

/// Registers of the manual's machine, x0 among them.
pub const REGISTERS: usize = 32;
pub const RAM_WORDS: usize = 256;
/// What a list keeps to.
const MOST_WORDS: u64 = 8;
const MOST_CYCLES: u64 = 64;

/// What a machine has after a case, of what the manual's machine has, too.
#[derive(Clone, Debug, PartialEq, Eq)]
pub struct State {
    /// x0 is among them, and zero.
    pub registers: Vec<u64>,
    pub ram: Vec<u64>,
    /// Whether the last word was a branch that was taken.
    pub taken: bool,
}

#[derive(Clone, Debug, PartialEq, Eq)]
pub struct Case {
    pub words: Vec<u32>,
    /// How many cycles the recorder runs.
    pub cycles: u64,
    /// Number and content of the registers that are not zero, ascending.
    pub registers: Vec<(u64, u64)>,
    /// The same of RAM words.
    pub ram: Vec<(u64, u64)>,
    /// Where RAM is in qemu. The recorder takes addresses modulo RAM's size.
    pub buffer: u64,
}

/// The case with as many cycles as the program has rows. Of a number that is
/// given several times the first counts; x0 and zeros are left out.
pub fn case(words: &[u32], registers: &[(u32, u64)], ram: &[(u64, u64)]) -> Case {
    let registers = registers
        .iter()
        .map(|&(number, value)| (number.into(), value));
    Case {
        words: words.to_vec(),
        cycles: expand_program(words).len as u64,
        registers: ascending(registers.filter(|&(number, _)| number > 0)),
        ram: ascending(ram.iter().copied()),
        buffer: 0,
    }
}

fn ascending(cells: impl Iterator<Item = (u64, u64)>) -> Vec<(u64, u64)> {
    let mut cells: Vec<(u64, u64)> = cells.collect();
    // The sort is stable.
    cells.sort_by_key(|&(number, _)| number);
    cells.dedup_by_key(|&mut (number, _)| number);
    cells.retain(|&(_, value)| value > 0);
    cells
}

impl Case {
    /// The registers before it.
    pub fn registers(&self) -> Vec<u64> {
        filled(REGISTERS, &self.registers)
    }

    /// The RAM words before it.
    pub fn ram(&self) -> Vec<u64> {
        filled(RAM_WORDS, &self.ram)
    }

    /// The lines of it that begin with this letter and say what is run.
    pub fn head(&self, letter: char) -> String {
        let words = self.words.iter().map(|&word| line('w', &[word.into()]));
        let registers = self.registers.iter().map(|&(i, v)| line('x', &[i, v]));
        let ram = self.ram.iter().map(|&(i, v)| line('m', &[i, v]));
        line(letter, &[self.words.len() as u64, self.cycles])
            + &words.chain(registers).chain(ram).collect::<String>()
    }

    /// The machine of the reference after it, and its last record.
    pub fn run_reference(&self) -> (StreamCursor, CycleRecord) {
        let mut cursor = StreamCursor::start(&self.ram());
        cursor.st.regs[..REGISTERS].copy_from_slice(&self.registers());
        let program = expand_program(&self.words);
        let mut records = cursor.run_segment(&program, self.cycles as usize);
        let last = records.pop().expect("a case has a cycle");
        (cursor, last)
    }

    /// What of the machine of the reference the manual's machine has, too.
    pub fn state_in_reference(&self) -> State {
        let (cursor, last) = self.run_reference();
        let mut registers = cursor.st.regs[..REGISTERS].to_vec();
        // The reference uses the cell of x0 in register shifts.
        registers[0] = 0;
        State {
            registers,
            ram: cursor.st.ram,
            taken: last.branch_taken,
        }
    }

    /// Whether the last word is a branch.
    pub fn branches(&self) -> bool {
        self.words.last().is_some_and(|word| word & 0x7f == 0x63)
    }

    /// What the lines of a case, of which the first begins with this letter, say
    /// of it, and how many lines do so. The error is the first line that has
    /// another form. How the numbers are written is not looked at.
    pub fn read(letter: char, lines: &[&[u8]]) -> Result<(Case, usize), usize> {
        let first = lines.first().and_then(|line| numbers(letter, line));
        let [count, cycles] = first.ok_or(0usize)?;
        if !(1..=MOST_WORDS).contains(&count) || !(1..=MOST_CYCLES).contains(&cycles) {
            return Err(0);
        }
        let behind = 1 + count as usize;
        let word = |place: usize| {
            let [word] = numbers('w', lines.get(place)?)?;
            u32::try_from(word).ok()
        };
        let words = (1..behind).map(|place| word(place).ok_or(place));
        let words = words.collect::<Result<_, usize>>()?;
        let registers = cells('x', 1..REGISTERS as u64, lines, behind)?;
        let behind = behind + registers.len();
        let ram = cells('m', 0..RAM_WORDS as u64, lines, behind)?;
        let behind = behind + ram.len();
        let case = Case {
            words,
            cycles,
            registers,
            ram,
            buffer: 0,
        };
        Ok((case, behind))
    }
}

fn filled(count: usize, cells: &[(u64, u64)]) -> Vec<u64> {
    let mut all = vec![0; count];
    for &(number, value) in cells {
        all[number as usize] = value;
    }
    all
}

/// The cells of the lines from this one on that have the letter: ascending
/// numbers of the range, and contents that are not zero.
fn cells(
    letter: char,
    range: Range<u64>,
    lines: &[&[u8]],
    first: usize,
) -> Result<Vec<(u64, u64)>, usize> {
    let mut cells: Vec<(u64, u64)> = Vec::new();
    let with_letter = |line: &&&[u8]| line.first() == Some(&(letter as u8));
    for line in lines.iter().skip(first).take_while(with_letter) {
        let place = first + cells.len();
        let [number, value] = numbers(letter, line).ok_or(place)?;
        let follows = cells.last().is_none_or(|&(last, _)| last < number);
        if !follows || !range.contains(&number) || value == 0 {
            return Err(place);
        }
        cells.push((number, value));
    }
    Ok(cells)
}

#[cfg(test)]
mod tests {
    use super::*;

    const LINES: [&[u8]; 8] = [
        b"d 2 7\n",
        b"w 13\n",
        b"w ffffffff\n",
        b"x 1 5\n",
        b"x 1f 1\n",
        b"m 0 2\n",
        b"m ff 3\n",
        b"h 0 1\n",
    ];

    #[test]
    fn zeros_and_x0_are_left_out() {
        // sll x3,x1,x2
        let case = case(
            &[0x0020_91b3],
            &[(2, 3), (0, 9), (1, 0), (2, 4)],
            &[(7, 1), (3, 0)],
        );
        assert_eq!(case.head('a'), "a 1 6\nw 2091b3\nx 2 3\nm 7 1\n");
        assert_eq!((case.registers()[2], case.ram()[7]), (3, 1));
        assert_eq!((case.registers().len(), case.ram().len()), (32, 256));
    }

    #[test]
    fn what_is_read_is_what_was_written() {
        let (case, behind) = Case::read('d', &LINES).unwrap();
        assert_eq!(case.head('d').as_bytes(), LINES[..7].concat());
        assert_eq!((behind, case.cycles), (7, 7));
    }

    #[test]
    fn another_form_is_refused_at_its_line() {
        let changed = |line: usize, text: &'static [u8]| {
            let mut lines = LINES;
            lines[line] = text;
            Case::read('d', &lines).unwrap_err()
        };
        for first in [
            "a 2 7\n", "d 0 7\n", "d 9 7\n", "d 2 0\n", "d 2 41\n", "d 2\n",
        ] {
            assert_eq!(changed(0, first.as_bytes()), 0, "{first}");
        }
        assert_eq!(changed(0, b"d 3 7\n"), 3);
        assert_eq!(changed(2, b"w 100000000\n"), 2);
        assert_eq!(changed(2, b"w 13"), 2);
        for register in ["x 0 1\n", "x 20 1\n", "x 1 1\n", "x 2 0\n", "x 2\n"] {
            assert_eq!(changed(4, register.as_bytes()), 4, "{register}");
        }
        for word in ["m 0 1\n", "m 100 1\n", "m 1 0\n", "m 1 1 1\n"] {
            assert_eq!(changed(6, word.as_bytes()), 6, "{word}");
        }
        assert_eq!(Case::read('d', &[]), Err(0));
        assert_eq!(Case::read('d', &LINES[..2]), Err(2));
    }

    #[test]
    fn the_reference_runs_it() {
        // sll x3,x1,x2 leaves the cell of x0 filled; bne x1,x2,.+8
        let shift = case(&[0x0020_91b3], &[(1, 1), (2, 3)], &[]);
        assert_eq!(shift.run_reference().0.st.regs[0], 8);
        let state = shift.state_in_reference();
        assert_eq!(state.registers[..4], [0, 1, 3, 8]);
        assert!(!state.taken && !shift.branches());
        let branch = case(&[0x0020_9463], &[(1, 1)], &[]);
        assert!(branch.state_in_reference().taken && branch.branches());
    }
}
