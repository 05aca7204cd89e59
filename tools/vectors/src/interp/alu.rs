//! Arithmetic and logic, immediate shifts, lui and auipc.

use super::{destination, pairs, straight, VALUES};
use crate::asm::{auipc, lui, op, op32, op_imm, op_imm32};
use crate::calllist::CallList;

/// funct7 and funct3 of the register forms that the manual defines, but for shifts.
const REGISTER_FORMS: [(u32, u32); 7] = [(0, 0), (0x20, 0), (0, 2), (0, 3), (0, 4), (0, 6), (0, 7)];
/// Others of the same opcode. Only 0x20 makes a difference to the reference, and
/// only with funct3 0.
const STRAY_FORMS: [(u32, u32); 4] = [(0x01, 0), (0x7f, 0), (0x20, 3), (0x20, 7)];
/// The last has 0x20 where a register form has funct7.
const IMMEDIATES: [i64; 7] = [0, 1, -1, -2048, 2047, 0x555, 0x405];
/// Amounts of immediate shifts, and bits above the amount.
const AMOUNTS: [i64; 9] = [0, 1, 31, 32, 33, 63, 64 + 5, 0x200 + 7, -1];
/// The bit that tells srai from srli.
const ARITHMETIC: i64 = 0x400;
const UPPERS: [i64; 7] = [0, 1, 0x7_ffff, 0x8_0000, 0xf_ffff, 0x1_2345, 0xa_bcde];

pub fn lists() -> Vec<CallList> {
    let register = REGISTER_FORMS.map(|(funct7, funct3)| register_form(funct7, funct3, 2));
    let stray = STRAY_FORMS.map(|(funct7, funct3)| register_form(funct7, funct3, 0));
    let immediate = [0, 2, 3, 4, 6, 7].map(immediate_form);
    let shifts = [(1, 0), (5, 0), (5, ARITHMETIC), (1, ARITHMETIC)];
    let shifts = shifts.map(|(funct3, bits)| immediate_shifts(funct3, bits));
    let words = [0, 2, 4, 6].map(word_forms);
    let bodies = [
        &register[..],
        &stray[..],
        &immediate[..],
        &shifts[..],
        &words[..],
        &[word_shifts()],
    ];
    let mut lists: Vec<CallList> = bodies
        .concat()
        .into_iter()
        .map(|body| straight(&VALUES, body))
        .collect();
    lists.push(straight(&[], uppers()));
    lists
}

fn register_form(funct7: u32, funct3: u32, others: usize) -> Vec<u32> {
    (0..)
        .zip(pairs(others))
        .map(|(number, [left, right])| op(funct7, funct3, [destination(number), left, right]))
        .collect()
}

fn immediate_form(funct3: u32) -> Vec<u32> {
    let immediates = IMMEDIATES.into_iter().cycle();
    // Each value twice, with different immediates.
    (0..16)
        .zip(immediates)
        .map(|(number, imm)| op_imm(funct3, [destination(number), 1 + number % 8], imm))
        .collect()
}

/// Each amount with a value that has bit 63, one that has not, and any.
fn immediate_shifts(funct3: u32, bits: i64) -> Vec<u32> {
    (0..)
        .zip(AMOUNTS)
        .flat_map(|(number, amount)| {
            let values = [6 + number % 2, 8 - 3 * (number % 2), 1 + number % 8];
            values.map(|value| op_imm(funct3, [destination(number), value], amount | bits))
        })
        .collect()
}

/// The 32-bit opcodes, which the reference takes for 64-bit ones, of two funct3.
fn word_forms(funct3: u32) -> Vec<u32> {
    let form = |number: u32| {
        let (d, left, right) = (destination(number), 1 + number % 8, 1 + number * 3 % 8);
        let imm = IMMEDIATES[number as usize % IMMEDIATES.len()];
        let funct7 = 0x20 * (number % 2);
        [0, 1].map(|odd| {
            [
                op_imm32(funct3 + odd, [d, left], imm),
                op32(funct7, funct3 + odd, [d, left, right]),
            ]
        })
    };
    (0..12).flat_map(form).flatten().collect()
}

/// slliw, srliw and sraiw.
fn word_shifts() -> Vec<u32> {
    (0..)
        .zip([0, 1, 5, 16, 30, 31])
        .flat_map(|(number, amount)| {
            let registers = [destination(number), 3 + number];
            let forms = [(1, 0), (5, 0), (5, ARITHMETIC)];
            forms.map(|(funct3, bits)| op_imm32(funct3, registers, bits | amount))
        })
        .collect()
}

fn uppers() -> Vec<u32> {
    (9..)
        .zip(UPPERS)
        .flat_map(|(d, upper)| {
            [
                lui(d, upper),
                auipc(d, upper),
                lui(0, upper),
                auipc(0, upper),
            ]
        })
        .collect()
}
