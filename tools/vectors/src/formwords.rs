//! Words of each instruction form: boundary operands first, then random ones.

use crate::encode::{i, rd, rs1, rs2};
use crate::forms::{Form, Format, FORMS};
use crate::immediate::Immediate::{self, B, I, J, S, U};
use crate::wordset::WordSet;
use rng::Rng;

/// Any number would do; it only has to stay the same.
const SEED: u64 = 0x4f42_4a44_554d_5031;
const WORDS_PER_FORM: usize = 80;
const REGISTERS: [u32; 3] = [0, 1, 31];

/// `fence w,0`. The manual gives this word a name of its own (`pause`), which
/// some versions of objdump print.
const PAUSE: u32 = 0x0100_000f;

/// Every word with its form, in the order of the table.
pub fn all() -> Vec<(&'static Form, u32)> {
    let mut rng = Rng::new(SEED);
    FORMS
        .iter()
        .flat_map(|form| {
            let words = words_of(form, &mut rng);
            words.into_iter().map(move |word| (form, word))
        })
        .collect()
}

fn words_of(form: &Form, rng: &mut Rng) -> Vec<u32> {
    if form.format == Format::System {
        return vec![form.base];
    }
    let mut set = WordSet::default();
    let boundaries = boundaries(form.format);
    for &value in &boundaries {
        for registers in boundary_registers() {
            add(&mut set, form, value, registers);
        }
    }
    while set.len() < WORDS_PER_FORM {
        let registers = [rng.word(), rng.word(), rng.word()];
        // Boundary values meet random registers, too.
        let value = match rng.below(2) {
            0 => boundaries[rng.below(boundaries.len())],
            _ => i64::from(rng.word()),
        };
        add(&mut set, form, value, registers);
    }
    set.into_words()
}

fn add(set: &mut WordSet, form: &Form, value: i64, registers: [u32; 3]) {
    let word = form.base | operands(form.format, value, registers);
    if word != PAUSE {
        set.add(word);
    }
}

/// The operand bits of a word; what the format does not have is dropped.
pub fn operands(format: Format, value: i64, [d, s1, s2]: [u32; 3]) -> u32 {
    match format {
        Format::Register => rd(d) | rs1(s1) | rs2(s2),
        Format::Immediate | Format::Offset => rd(d) | rs1(s1) | i(value),
        Format::Shift6 => rd(d) | rs1(s1) | i(value & 0x3f),
        Format::Shift5 => rd(d) | rs1(s1) | i(value & 0x1f),
        Format::Store => rs1(s1) | rs2(s2) | S.place(value),
        Format::Branch => rs1(s1) | rs2(s2) | B.place(value),
        Format::Upper => rd(d) | U.place(value),
        Format::Jump => rd(d) | J.place(value),
        // The four bits of each set; the manual reserves the other fields.
        Format::Fence => i(value & 0xff),
        Format::System => 0,
    }
}

fn boundaries(format: Format) -> Vec<i64> {
    let with_alternating = |immediate: Immediate| {
        let mut values = immediate.boundaries();
        values.extend(immediate.alternating());
        values
    };
    match format {
        Format::Register | Format::System => vec![0],
        Format::Immediate | Format::Offset => with_alternating(I),
        Format::Shift6 => vec![0, 1, 31, 32, 63, 0x15, 0x2a],
        Format::Shift5 => vec![0, 1, 31, 0x15, 0x0a],
        Format::Store => with_alternating(S),
        Format::Branch => with_alternating(B),
        Format::Upper => with_alternating(U),
        Format::Jump => with_alternating(J),
        Format::Fence => vec![0, 0xff, 0x0f, 0xf0, 0x55, 0xaa, 0x33, 0x11],
    }
}

/// The boundary registers in all combinations of three.
fn boundary_registers() -> Vec<[u32; 3]> {
    let mut combinations = Vec::new();
    for d in REGISTERS {
        for s1 in REGISTERS {
            for s2 in REGISTERS {
                combinations.push([d, s1, s2]);
            }
        }
    }
    combinations
}

#[cfg(test)]
mod tests {
    use super::*;
    use std::collections::{HashMap, HashSet};

    #[test]
    fn every_form_has_its_share() {
        let mut counts: HashMap<&str, usize> = HashMap::new();
        for (form, _) in all() {
            *counts.entry(form.mnemonic).or_default() += 1;
        }
        assert_eq!(counts.len(), 52);
        for (mnemonic, count) in counts {
            match mnemonic {
                "ecall" | "ebreak" => assert_eq!(count, 1),
                _ => assert!((60..=100).contains(&count), "{mnemonic} {count}"),
            }
        }
    }

    #[test]
    fn words_differ() {
        let words: Vec<u32> = all().into_iter().map(|(_, word)| word).collect();
        assert_eq!(words.iter().collect::<HashSet<_>>().len(), words.len());
        assert!(!words.contains(&PAUSE));
    }

    #[test]
    fn operands_keep_to_the_format() {
        let ones = [31, 31, 31];
        assert_eq!(operands(Format::Register, -1, ones), 0x01ff_8f80);
        assert_eq!(operands(Format::Immediate, -1, ones), 0xffff_8f80);
        assert_eq!(operands(Format::Shift6, -1, ones), 0x03ff_8f80);
        assert_eq!(operands(Format::Shift5, -1, ones), 0x01ff_8f80);
        assert_eq!(operands(Format::Store, -1, ones), 0xffff_8f80);
        assert_eq!(operands(Format::Upper, -1, ones), 0xffff_ff80);
        assert_eq!(operands(Format::Fence, -1, ones), 0x0ff0_0000);
    }

    #[test]
    fn boundary_words_are_in() {
        let words: HashSet<u32> = all().into_iter().map(|(_, word)| word).collect();
        // addi x31,x31,-2048; srai x1,x1,63; lui x0,0x80000; jal x0,.-2
        for word in [0x800f_8f93, 0x43f0_d093, 0x8000_0037, 0xffff_f06f] {
            assert!(words.contains(&word), "{word:08x}");
        }
    }
}
