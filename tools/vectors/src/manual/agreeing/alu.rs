//! Arithmetic, logic, comparisons, and lui.

use super::{case, pairs, product, registers, values, Case, MIXED, STALE};
use crate::asm::{lui, op, op_imm};

/// funct7 and funct3 of add, sub, slt, sltu, xor, or and and.
const REGISTER_FORMS: [(u32, u32); 7] = [(0, 0), (0x20, 0), (0, 2), (0, 3), (0, 4), (0, 6), (0, 7)];
/// funct3 of addi, slti, sltiu, xori, ori and andi.
const IMMEDIATE_FORMS: [u32; 6] = [0, 2, 3, 4, 6, 7];
const IMMEDIATES: [i64; 5] = [0, 1, -1, -2048, 2047];
/// Every other bit.
const MIXED_IMMEDIATES: [i64; 2] = [0x555, -0x556];
/// Destination and sources that coincide with one another or are x0.
const COINCIDENCES: [[u32; 3]; 10] = [
    [5, 5, 6],
    [6, 5, 6],
    [7, 5, 5],
    [5, 5, 5],
    [0, 5, 6],
    [0, 5, 5],
    [5, 0, 6],
    [5, 6, 0],
    [5, 0, 0],
    [0, 0, 0],
];
const IMMEDIATE_COINCIDENCES: [[u32; 2]; 4] = [[5, 5], [0, 5], [5, 0], [0, 0]];
/// Bit 19, which would be bit 31 of the value, is clear.
const UPPERS: [i64; 6] = [0, 0x7_ffff, 0x5_5555, 0x2_aaaa, 0x1_2345, 0x7_fffe];

pub fn cases() -> Vec<Case> {
    let register = REGISTER_FORMS
        .into_iter()
        .flat_map(|(funct7, funct3)| register_form(|registers| op(funct7, funct3, registers)));
    let immediate = IMMEDIATE_FORMS.into_iter().flat_map(immediate_form);
    register.chain(immediate).chain(uppers()).collect()
}

fn register_form(word: impl Fn([u32; 3]) -> u32) -> Vec<Case> {
    let values = (0..).zip(pairs()).map(|(number, pair)| {
        let [d, left, right] = registers(number);
        let registers = [(left, pair.0), (right, pair.1), (d, STALE)];
        case(&[word([d, left, right])], &registers, &[])
    });
    values.chain(coincidences(&word)).collect()
}

/// x7 is only a destination, x5 and x6 are sources, too.
fn coincidences(word: impl Fn([u32; 3]) -> u32) -> impl Iterator<Item = Case> {
    let before = [(5, MIXED[0]), (6, MIXED[1]), (7, STALE)];
    COINCIDENCES
        .into_iter()
        .map(move |registers| case(&[word(registers)], &before, &[]))
}

fn immediate_form(funct3: u32) -> Vec<Case> {
    let values: Vec<u64> = values().collect();
    let all = product(&values, &IMMEDIATES).chain(product(&MIXED, &MIXED_IMMEDIATES));
    let values = (0..).zip(all).map(|(number, (value, imm))| {
        let [d, source, _] = registers(number);
        let word = op_imm(funct3, [d, source], imm);
        case(&[word], &[(source, value), (d, STALE)], &[])
    });
    let coincidences = IMMEDIATE_COINCIDENCES.map(|registers| {
        let word = op_imm(funct3, registers, -0x556);
        case(&[word], &[(5, MIXED[0])], &[])
    });
    values.chain(coincidences).collect()
}

/// Every bit of the immediate alone, and every destination.
fn uppers() -> impl Iterator<Item = Case> {
    let bits = (0..19).map(|bit| 1 << bit);
    let all = UPPERS.into_iter().chain(bits).chain(UPPERS);
    let upper = |(d, upper)| case(&[lui(d, upper)], &[(d, STALE)], &[]);
    (1..32).zip(all).chain([(0, 0x1_2345)]).map(upper)
}
