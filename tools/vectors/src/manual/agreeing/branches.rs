//! The conditions of branches. Where they go is not compared.

use super::{case, pairs, registers, Case, MIXED};
use crate::asm::branch;

/// funct3 of beq, bne, blt, bge, bltu and bgeu.
const FORMS: [u32; 6] = [0, 1, 4, 5, 6, 7];
/// Not by 0, which would never end, and not by 4, which is the next word.
const DISTANCES: [i64; 6] = [8, -4, -4096, 4092, 0x554, -0x558];
const COINCIDENCES: [[u32; 2]; 4] = [[5, 5], [5, 0], [0, 5], [0, 0]];

pub fn cases() -> Vec<Case> {
    FORMS.into_iter().flat_map(form).collect()
}

fn form(funct3: u32) -> Vec<Case> {
    let distances = DISTANCES.into_iter().cycle();
    let values = (0..).zip(pairs()).zip(distances.clone());
    let values = values.map(|((number, pair), distance)| {
        let [_, left, right] = registers(number);
        let word = branch(funct3, [left, right], distance);
        case(&[word], &[(left, pair.0), (right, pair.1)], &[])
    });
    // Once below zero and once above.
    let coincidences = MIXED[..2].iter().flat_map(|&value| {
        COINCIDENCES.map(|registers| case(&[branch(funct3, registers, 8)], &[(5, value)], &[]))
    });
    values.chain(coincidences).collect()
}
