//! Programs, and the reference's expansions of them as words.

use magnetar_reference::decode::{decode, Opcode};
use magnetar_reference::expand::{expand_program, VirtualInst, VirtualKind, SHIFT_STAGES};
use rng::Rng;
use std::sync::LazyLock;

const OPCODE_BITS: u32 = 0x7f;
/// The opcode numbers that the reference gives a class.
static OPCODES: LazyLock<Vec<u32>> = LazyLock::new(|| {
    let known = |&number: &u32| decode(number).opcode != Opcode::Invalid;
    (0..=OPCODE_BITS).filter(known).collect()
});
const REGISTER: u32 = 0x33;
const FUNCT3_AT: u32 = 12;
const FUNCT3_BITS: u32 = 7 << FUNCT3_AT;

/// The opcodes of branches and of JAL, and the bits that the immediate has in
/// common with its sign if it is from -64 to 62.
const NEAR: [(u32, u32); 2] = [(0x63, 0xfc00_0080), (0x6f, 0xfc1f_f000)];

/// A word of one row, and one of six.
pub const ADDI: u32 = 0x0050_0513;
pub const SLL: u32 = 0x0020_91b3;
/// A word that halts.
pub const ECALL: u32 = 0x0000_0073;

/// The most rows that a word becomes.
pub const STAGES: usize = SHIFT_STAGES;

/// The expansion of a program by the reference, as words.
pub struct Expansion {
    pub rows: Vec<u64>,
    pub starts: Vec<u64>,
}

impl Expansion {
    pub fn of(program: &[u32]) -> Self {
        let expanded = expand_program(program);
        assert_eq!(expanded.len, expanded.rows.len());
        let starts = expanded.inst_to_micro.iter();
        Expansion {
            rows: expanded.rows.iter().map(row_word).collect(),
            starts: starts.map(|&start| start as u64).collect(),
        }
    }
}

pub(crate) fn row_word(inst: &VirtualInst) -> u64 {
    match inst.row.kind {
        VirtualKind::ShiftStage { stage } => stage_word(inst.row.raw, stage),
        _ => u64::from(inst.row.raw),
    }
}

/// The row word of a stage.
pub fn stage_word(raw: u32, stage: usize) -> u64 {
    u64::from(raw) + ((stage as u64) << 32)
}

/// A register shift. Only opcode and funct3 make one, so the rest is random.
pub fn register_shift(rng: &mut Rng) -> u32 {
    let funct3 = [1, 5][rng.below(2)];
    rng.word() & !(OPCODE_BITS | FUNCT3_BITS) | REGISTER | funct3 << FUNCT3_AT
}

/// A word of a known opcode, the rest random; now and then a register shift.
pub fn known_word(rng: &mut Rng) -> u32 {
    rng.word() & !OPCODE_BITS | OPCODES[rng.below(OPCODES.len())]
}

/// A word of a known opcode that becomes one row.
pub fn ordinary_word(rng: &mut Rng) -> u32 {
    loop {
        let word = known_word(rng);
        let funct3 = (word & FUNCT3_BITS) >> FUNCT3_AT;
        if word & OPCODE_BITS != REGISTER || !matches!(funct3, 1 | 5) {
            return word;
        }
    }
}

/// A register shift with one bit of opcode, rd or funct3 changed, after which it
/// mostly is none.
pub fn near_shift(rng: &mut Rng) -> u32 {
    register_shift(rng) ^ 1 << rng.below(15)
}

/// A branch or JAL to one of the nearest rows.
pub fn near_target(rng: &mut Rng) -> u32 {
    let (opcode, sign) = NEAR[rng.below(NEAR.len())];
    let word = rng.word() & !OPCODE_BITS | opcode;
    match rng.below(2) {
        0 => word & !sign,
        _ => word | sign,
    }
}

/// A word that does not halt, every other time a near target or register shift.
pub fn live_word(rng: &mut Rng) -> u32 {
    match rng.below(4) {
        0 => near_target(rng),
        1 => register_shift(rng),
        _ => loop {
            let word = ordinary_word(rng);
            if expand_program(&[word]).rows[0].row.kind != VirtualKind::System {
                return word;
            }
        },
    }
}

/// Any word, register shifts and what is nearly one most often.
pub fn any_word(rng: &mut Rng) -> u32 {
    match rng.below(4) {
        0 => rng.word(),
        1 => known_word(rng),
        2 => register_shift(rng),
        _ => near_shift(rng),
    }
}

/// `length` words, each drawn by `word`.
pub fn program(length: usize, rng: &mut Rng, word: impl Fn(&mut Rng) -> u32) -> Vec<u32> {
    (0..length).map(|_| word(rng)).collect()
}

#[cfg(test)]
mod tests {
    use super::*;

    fn rows_of(word: impl Fn(&mut Rng) -> u32) -> usize {
        Expansion::of(&program(1000, &mut Rng::new(1), word))
            .rows
            .len()
    }

    #[test]
    fn words_become_as_many_rows_as_their_names_say() {
        assert_eq!(rows_of(register_shift), 1000 * STAGES);
        assert_eq!(rows_of(ordinary_word), 1000);
        assert_eq!(rows_of(near_target), 1000);
        for both in [known_word, near_shift, live_word, any_word] {
            assert!((1001..1000 * STAGES).contains(&rows_of(both)));
        }
    }

    #[test]
    fn near_targets_are_near() {
        let words = program(1000, &mut Rng::new(1), near_target);
        let mut immediates: Vec<i64> = words.iter().map(|&word| decode(word).imm).collect();
        immediates.sort();
        immediates.dedup();
        assert!(immediates.into_iter().eq((-64..64).step_by(2)));
    }

    #[test]
    fn live_words_do_not_halt() {
        let expanded = expand_program(&program(1000, &mut Rng::new(1), live_word));
        let halts = |inst: &VirtualInst| inst.row.kind == VirtualKind::System;
        assert!(!expanded.rows.iter().any(halts));
    }

    #[test]
    fn an_expansion_in_words() {
        let expansion = Expansion::of(&[ADDI, SLL, ADDI]);
        let mut rows = vec![0x0050_0513];
        rows.extend((0..6).map(|stage| 0x0020_91b3 + (stage << 32)));
        rows.push(0x0050_0513);
        assert_eq!(expansion.rows, rows);
        assert_eq!(expansion.starts, [0, 1, 7]);
    }
}
