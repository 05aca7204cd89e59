//! The fixed set of programs whose expansions by the reference are listed.

use crate::encode::{rd, rs1, rs2};
use crate::rowline::expansion;
use crate::words::{self, OPCODES, OPCODE_BITS};
use rng::Rng;

/// Any number would do; it only has to stay the same.
const SEED: u64 = 0x4558_5041_4e44_0001;
const RANDOM_PROGRAMS: usize = 60;
const RANDOM_LENGTH: usize = 40;
/// The most words that a program of a list may have.
const LONGEST: usize = 128;

/// sll, srl and sra with all registers zero.
const SHIFTS: [u32; 3] = [0x0000_1033, 0x0000_5033, 0x4000_5033];
const REGISTER_BITS: u32 = 0x01ff_8f80;
/// The two that the manual gives to shifts, all bits, and some of the others.
const FUNCT7_VALUES: [u32; 6] = [0x20, 0x00, 0x7f, 0x01, 0x2a, 0x55];

/// Words of one row, of all kinds.
const ORDINARY: [u32; 13] = [
    0x0050_0513, // addi x10,x0,5
    0xfe11_3c23, // sd x1,-8(x2)
    0x0010_00ef, // jal x1,.+2048
    0x0000_0073, // ecall
    0xff81_3083, // ld x1,-8(x2)
    0xfe20_8ee3, // beq x1,x2,.-4
    0xffff_ff97, // auipc x31,0xfffff
    0x0000_0000, // no instruction
    0x0020_81b3, // add x3,x1,x2
    0x0000_8067, // jalr x0,0(x1)
    0x1234_52b7, // lui x5,0x12345
    0x0ff0_000f, // fence iorw,iorw
    0x03f0_9093, // slli x1,x1,63
];

pub fn listing() -> String {
    all().iter().map(|program| expansion(program)).collect()
}

pub fn all() -> Vec<Vec<u32>> {
    let mut programs = shift_positions();
    programs.extend(in_programs_of(32, stray_funct7()));
    programs.extend(in_programs_of(12, lookalikes()));
    programs.extend(in_programs_of(100, words::all()));
    programs.extend(random());
    programs.push((0..LONGEST).map(shift).collect());
    programs
}

fn in_programs_of(length: usize, words: Vec<u32>) -> Vec<Vec<u32>> {
    words.chunks(length).map(<[u32]>::to_vec).collect()
}

/// Programs of 1 to 6 words with register shifts at every set of positions.
/// The shortest come several times, with other words.
fn shift_positions() -> Vec<Vec<u32>> {
    let mut shifts = (0..).map(shift);
    let mut ordinary = ORDINARY.iter().copied().cycle();
    let mut programs = Vec::new();
    for length in 1..=6 {
        // The low bits of the number say which positions are shifts.
        for number in 0..(1 << length).max(16) {
            let word = |position| match number >> position & 1 {
                0 => ordinary.next(),
                _ => shifts.next(),
            };
            programs.push((0..length).filter_map(word).collect());
        }
    }
    programs
}

/// sll, srl and sra in turn.
fn shift(number: usize) -> u32 {
    SHIFTS[number % SHIFTS.len()] | registers(number)
}

/// The factors are odd, so that each field runs through all 32 registers.
fn registers(number: usize) -> u32 {
    let number = number as u32;
    rd(31 + 5 * number) | rs1(11 * number) | rs2(30 + 21 * number)
}

/// The words of sll and srl with every funct7: all are register shifts to the
/// reference.
fn stray_funct7() -> Vec<u32> {
    let word = |number| SHIFTS[number % 2] | registers(number) | (number as u32 / 2) << 25;
    (0..2 * 128).map(word).collect()
}

/// Words that are almost register shifts: another opcode with the funct3 of
/// shifts, and the opcode of register shifts with another funct3.
fn lookalikes() -> Vec<u32> {
    let opcodes = [0x13, 0x1b, 0x3b].into_iter();
    let other_opcode = opcodes.flat_map(|opcode| [opcode | 1 << 12, opcode | 5 << 12]);
    let other_funct3 = [0, 2, 3, 4, 6, 7].map(|funct3| 0x33 | funct3 << 12);
    let variants = |base: u32| {
        let variant = move |(number, funct7)| {
            [registers(number), REGISTER_BITS].map(|fields| base | fields | funct7 << 25)
        };
        FUNCT7_VALUES.into_iter().enumerate().flat_map(variant)
    };
    other_opcode
        .chain(other_funct3)
        .flat_map(variants)
        .collect()
}

fn random() -> Vec<Vec<u32>> {
    let mut rng = Rng::new(SEED);
    (0..RANDOM_PROGRAMS)
        .map(|_| {
            let length = 1 + rng.below(RANDOM_LENGTH);
            (0..length).map(|_| random_word(&mut rng)).collect()
        })
        .collect()
}

/// Any word, one of a known opcode, or a register shift.
pub fn random_word(rng: &mut Rng) -> u32 {
    let word = rng.word();
    match rng.below(3) {
        0 => word,
        1 => (word & !OPCODE_BITS) | OPCODES[rng.below(OPCODES.len())].0,
        _ => (word & REGISTER_BITS) | SHIFTS[rng.below(SHIFTS.len())],
    }
}

#[cfg(test)]
mod tests {
    use super::*;
    use crate::list::lines;
    use crate::listing::{RD, STRIDE};
    use crate::rowline::{KIND, PROGRAMS};
    use std::collections::HashSet;

    /// By the manual's fields, not by the reference.
    fn is_shift(word: u32) -> bool {
        matches!(word & 0x707f, 0x1033 | 0x5033)
    }

    #[test]
    fn lengths_are_within_bounds() {
        let lengths: Vec<usize> = all().iter().map(Vec::len).collect();
        assert_eq!(lengths.iter().min(), Some(&1));
        assert_eq!(lengths.iter().max(), Some(&LONGEST));
        assert_eq!(lengths.last(), Some(&LONGEST));
    }

    #[test]
    fn shifts_at_every_set_of_positions() {
        let places = |program: Vec<u32>| program.into_iter().map(is_shift).collect();
        let found: HashSet<Vec<bool>> = shift_positions().into_iter().map(places).collect();
        assert_eq!(found.len(), 2 + 4 + 8 + 16 + 32 + 64);
    }

    #[test]
    fn shifts_name_every_register() {
        for field in [rd(31), rs1(31), rs2(31)] {
            for form in 0..3 {
                let words = (form..LONGEST).step_by(3).map(shift);
                let values: HashSet<u32> = words.map(|word| word & field).collect();
                assert_eq!(values.len(), 32, "{field:08x}");
            }
        }
    }

    #[test]
    fn stray_words_are_shifts_and_lookalikes_are_not() {
        let stray: HashSet<u32> = stray_funct7()
            .iter()
            .map(|word| word & 0xfe00_707f)
            .collect();
        assert_eq!(stray.len(), 256);
        assert!(stray_funct7().into_iter().all(is_shift));
        let others: HashSet<u32> = lookalikes().into_iter().collect();
        assert_eq!(others.len(), 12 * 2 * FUNCT7_VALUES.len());
        assert!(!others.into_iter().any(is_shift));
    }

    #[test]
    fn all_kinds_occur() {
        let list = listing();
        let rows = lines(list.as_bytes()).filter(|line| !(PROGRAMS.begins)(line));
        let kinds: HashSet<&[u8]> = rows.map(|row| &row[KIND]).collect();
        let shifts = kinds.iter().filter(|kind| kind.starts_with(b"Shift "));
        assert_eq!((kinds.len(), shifts.count()), (7 + 6, 6));
        let last = lines(list.as_bytes()).filter(|row| &row[KIND] == b"Shift 5");
        assert_eq!(last.map(|row| &row[RD]).collect::<HashSet<_>>().len(), 32);
    }

    #[test]
    fn the_list_is_right_and_the_same_again() {
        let list = listing();
        assert_eq!(PROGRAMS.parts(list.as_bytes()).len(), all().len());
        assert_eq!(PROGRAMS.wrong_lines(list.as_bytes()), []);
        assert_eq!(list.len() % STRIDE, 0);
        assert_eq!(list, listing());
    }
}
