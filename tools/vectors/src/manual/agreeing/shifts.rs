//! Shifts by an immediate and by a register.

use super::{case, product, registers, Case, BOUNDARIES, MIXED, STALE};
use crate::asm::{op, op_imm};

/// funct3 of slli, srli and srai, the bit that tells srai from srli, the largest
/// amount on which the recorder agrees, and the amounts that meet every boundary.
const IMMEDIATE_SHIFTS: [(u32, i64, i64, &[i64]); 3] = [
    (1, 0, 63, &[0, 1, 31, 32, 62, 63]),
    (5, 0, 63, &[0, 1, 31, 32, 62, 63]),
    (5, 0x400, 31, &[0, 1, 30, 31]),
];
/// funct7 and funct3 of sll, srl and sra.
const REGISTER_SHIFTS: [(u32, u32); 3] = [(0, 1), (0, 5), (0x20, 5)];
/// Boundary amounts, single bits of an amount, and amounts with bits above the
/// lower six, which do not count.
const AMOUNTS: [u64; 16] = [
    0,
    1,
    2,
    4,
    8,
    16,
    31,
    32,
    62,
    63,
    64,
    1 << 32,
    (1 << 63) | 1,
    u64::MAX,
    u64::MAX << 6,
    0x5bd1_e995_9d3a_c74d,
];
/// What is shifted by them.
const SHIFTED: [u64; 6] = [
    1,
    1 << 31,
    (1 << 63) - 1,
    1 << 63,
    u64::MAX,
    0xa42e_166a_62c5_38b2,
];
/// Destination and sources that coincide, or are x0. The amount is never x0, which
/// the recorder reads as something else.
const COINCIDENCES: [[u32; 3]; 8] = [
    [5, 5, 6],
    [6, 5, 6],
    [7, 5, 5],
    [5, 5, 5],
    [0, 5, 6],
    [7, 0, 6],
    [6, 0, 6],
    [0, 0, 6],
];

pub fn cases() -> Vec<Case> {
    let immediate = IMMEDIATE_SHIFTS.into_iter().flat_map(immediate_shift);
    let register = REGISTER_SHIFTS.into_iter().flat_map(register_shift);
    immediate.chain(register).collect()
}

fn immediate_shift((funct3, bit, largest, amounts): (u32, i64, i64, &[i64])) -> Vec<Case> {
    let word = |registers, amount| op_imm(funct3, registers, bit | amount);
    let every = (0..=largest).zip(MIXED.into_iter().cycle());
    let all = every.chain(product(amounts, &BOUNDARIES));
    let values = (0..).zip(all).map(|(number, (amount, value))| {
        let [d, source, _] = registers(number);
        case(
            &[word([d, source], amount)],
            &[(source, value), (d, STALE)],
            &[],
        )
    });
    let coincidences = [[5, 5], [0, 5], [7, 0], [0, 0]]
        .map(|registers| case(&[word(registers, 13)], &[(5, MIXED[1]), (7, STALE)], &[]));
    values.chain(coincidences).collect()
}

fn register_shift((funct7, funct3): (u32, u32)) -> Vec<Case> {
    let word = |registers| op(funct7, funct3, registers);
    let values = (0..).zip(product(&AMOUNTS, &SHIFTED));
    let values = values.map(|(number, (amount, value))| {
        let [d, source, by] = registers(number);
        let before = [(source, value), (by, amount), (d, STALE)];
        case(&[word([d, source, by])], &before, &[])
    });
    let before = [(5, MIXED[1]), (6, MIXED[0]), (7, STALE)];
    let coincidences = COINCIDENCES.map(|registers| case(&[word(registers)], &before, &[]));
    values.chain(coincidences).collect()
}
