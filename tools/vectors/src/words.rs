//! The fixed set of words whose answers by the reference are listed.

use crate::immediate::Immediate::{self, B, I, J, S, U};
use crate::listing::{join, Line};
use crate::wordset::WordSet;
use rng::Rng;

/// Any number would do; it only has to stay the same.
const SEED: u64 = 0x5256_3634_4c49_5354;
const RANDOM_PER_OPCODE: usize = 150;
const RANDOM_WORDS: usize = 1000;

pub const OPCODE_BITS: u32 = 0x7f;
pub const ECALL: u32 = 0x0000_0073;
pub const EBREAK: u32 = 0x0010_0073;

/// The opcode numbers that the reference matches, with the immediate format of
/// each. The last four have no immediate; there the bits of an I immediate are
/// used, to show that the answer does not depend on them.
pub const OPCODES: [(u32, Immediate); 13] = [
    (0x37, U),
    (0x17, U),
    (0x6f, J),
    (0x67, I),
    (0x63, B),
    (0x03, I),
    (0x23, S),
    (0x13, I),
    (0x1b, I),
    (0x33, I),
    (0x3b, I),
    (0x0f, I),
    (0x73, I),
];

/// What the bits outside the immediate hold: nothing, all ones, every other.
const FILLINGS: [u32; 3] = [0, u32::MAX, 0xaaaa_aaaa];

pub fn listing() -> String {
    join(all().into_iter().map(Line::of_reference))
}

pub fn all() -> Vec<u32> {
    let mut set = WordSet::default();
    set.add(0);
    set.add(u32::MAX);
    add_opcodes(&mut set);
    for (opcode, immediate) in OPCODES {
        add_walks(&mut set, opcode);
        add_immediates(&mut set, opcode, immediate);
    }
    add_system(&mut set);
    add_random(&mut set);
    set.into_words()
}

/// Every opcode number with every funct3.
fn add_opcodes(set: &mut WordSet) {
    for opcode in 0..=OPCODE_BITS {
        for funct3 in 0..8 {
            set.add(opcode | funct3 << 12);
        }
    }
}

/// One operand bit set, one operand bit clear, and all set. Bit 31 alone is
/// the last of the walking ones.
fn add_walks(set: &mut WordSet, opcode: u32) {
    for bit in 7..32 {
        set.add(opcode | 1 << bit);
    }
    for bit in 7..32 {
        set.add(opcode | (!OPCODE_BITS & !(1 << bit)));
    }
    set.add(opcode | !OPCODE_BITS);
}

fn add_immediates(set: &mut WordSet, opcode: u32, immediate: Immediate) {
    let outside = !OPCODE_BITS & !immediate.place(-1);
    let mut values = immediate.boundaries();
    values.extend(immediate.neighbours());
    values.extend(immediate.single_bits());
    for value in values {
        for filling in FILLINGS {
            set.add(opcode | immediate.place(value) | (filling & outside));
        }
    }
}

/// Only two words of the system opcode are instructions here: each bit counts.
fn add_system(set: &mut WordSet) {
    for word in [ECALL, EBREAK] {
        set.add(word);
        for bit in 0..32 {
            set.add(word ^ 1 << bit);
        }
    }
}

fn add_random(set: &mut WordSet) {
    let mut rng = Rng::new(SEED);
    for (opcode, _) in OPCODES {
        for _ in 0..RANDOM_PER_OPCODE {
            set.add(opcode | (rng.word() & !OPCODE_BITS));
        }
    }
    for _ in 0..RANDOM_WORDS {
        set.add(rng.word());
    }
}

#[cfg(test)]
mod tests {
    use super::*;
    use crate::listing::{holds, STRIDE};
    use std::collections::HashSet;

    #[test]
    fn each_word_once_and_enough_of_them() {
        let words = all();
        assert_eq!(words.iter().collect::<HashSet<_>>().len(), words.len());
        assert!((5000..=8000).contains(&words.len()), "{}", words.len());
        assert_eq!(words[..2], [0, u32::MAX]);
    }

    #[test]
    fn named_words_are_in() {
        let words: HashSet<u32> = all().into_iter().collect();
        for word in [ECALL, EBREAK, 0x8000_0037, 0x7fff_f037, 0xffff_ffe3] {
            assert!(words.contains(&word), "{word:08x}");
        }
        for (opcode, _) in OPCODES {
            assert!(words.contains(&(opcode | 1 << 31)), "{opcode:02x}");
        }
    }

    #[test]
    fn opcodes_are_those_the_reference_matches() {
        let matched: Vec<u32> = (0..=OPCODE_BITS)
            .filter(|&opcode| Line::of_reference(opcode).class != "Invalid")
            .collect();
        let mut ours = OPCODES.map(|(opcode, _)| opcode);
        ours.sort_unstable();
        assert_eq!(matched, ours);
    }

    #[test]
    fn all_classes_occur() {
        let classes: HashSet<String> = all()
            .into_iter()
            .map(|word| Line::of_reference(word).class)
            .collect();
        assert_eq!(classes.len(), 15);
    }

    #[test]
    fn lines_are_whole() {
        let list = listing();
        assert_eq!(list.len(), all().len() * STRIDE);
        assert!(list.lines().all(|line| holds(line.as_bytes())));
    }
}
