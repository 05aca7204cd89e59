//! Register shifts, which take six rows and leave a value in cell 0.

use super::straight;
use crate::asm::{addi, branch, jal, jalr, ld, lui, op, op32, op_imm, store};
use crate::calllist::CallList;

/// funct7 and funct3 of sll, srl and sra.
pub const SHIFTS: [(u32, u32); 3] = [(0, 1), (0, 5), (0x20, 5)];
/// Of the others the reference takes funct3 1 for sll and funct3 5 for srl.
const STRAY_SHIFTS: [(u32, u32); 6] = [
    (0x20, 1),
    (0x7f, 1),
    (0x01, 5),
    (0x21, 5),
    (0x60, 5),
    (0x7f, 5),
];
/// Each bit of an amount alone, none, all, some, and bits above the amount.
const AMOUNTS: [u64; 12] = [0, 1, 2, 4, 8, 16, 32, 63, 64, 21, 1 << 32, u64::MAX - 21];
/// What is shifted: bits at both ends, and a number without a pattern.
const SHIFTED: [u64; 2] = [0x8000_0000_0000_0001, 0x9d3a_c74d_5bd1_e995];

pub fn lists() -> Vec<CallList> {
    let mut lists: Vec<CallList> = SHIFTS.into_iter().map(amounts).collect();
    lists.push(strays());
    lists.extend(SHIFTS.map(zero_registers));
    lists.extend(SHIFTS.map(same_registers));
    lists.extend([
        leftovers((0, 1), [1, 3]),
        leftovers((0x20, 5), [1 << 63, 1]),
        leftovers((0, 5), [u64::MAX, 42]),
    ]);
    lists
}

fn amounts((funct7, funct3): (u32, u32)) -> CallList {
    let values = [&SHIFTED[..], &AMOUNTS[..]].concat();
    let shifts = (0..).zip(AMOUNTS).map(|(number, _)| {
        let (shifted, amount) = (1 + number % 2, 3 + number);
        op(funct7, funct3, [20 + number, shifted, amount])
    });
    straight(&values, shifts)
}

fn strays() -> CallList {
    let shifts = STRAY_SHIFTS.map(|(funct7, funct3)| op(funct7, funct3, [4, 1, 3]));
    straight(&[SHIFTED[0], SHIFTED[1], 37], shifts)
}

/// All sets of registers that are x0. After each shift x0 is read.
fn zero_registers((funct7, funct3): (u32, u32)) -> CallList {
    let words = (0..8).flat_map(|set| {
        let registers = [3 * (set & 1), (set >> 1) & 1, 2 * (set >> 2)];
        [op(funct7, funct3, registers), addi([4, 0], 1)]
    });
    straight(&[SHIFTED[1], 5], words)
}

/// The destination is also what is shifted, the amount, or both.
fn same_registers((funct7, funct3): (u32, u32)) -> CallList {
    let registers = [[1, 1, 1], [2, 2, 3], [3, 2, 3]];
    let shifts = registers.map(|registers| op(funct7, funct3, registers));
    straight(&[0x8000_0000_0000_0013, SHIFTED[1], 6], shifts)
}

/// A shift, then every way to read what it leaves in cell 0.
fn leftovers((funct7, funct3): (u32, u32), values: [u64; 2]) -> CallList {
    let words = [
        op(funct7, funct3, [3, 1, 2]),
        op(0, 0, [4, 0, 1]),
        op(0x20, 0, [5, 1, 0]),
        op(0, 4, [0, 0, 0]),
        op32(0, 0, [6, 0, 1]),
        addi([7, 0], -1),
        op_imm(3, [8, 0], 9),
        op_imm(5, [9, 0], 2),
        ld([10, 0], 0),
        ld([11, 0], 1),
        store(3, [0, 0], 16),
        store(0, [1, 0], 3),
        store(1, [0, 1], 0),
        branch(0, [0, 0], 4),
        branch(1, [0, 1], 4),
        branch(4, [0, 1], 4),
        branch(7, [1, 0], 4),
        lui(12, 1),
        jal(0, 4),
        // Cell 0 is what is shifted, then it is the amount.
        op(funct7, funct3, [13, 0, 2]),
        op(funct7, funct3, [14, 1, 0]),
        jalr([15, 0], 4),
    ];
    straight(&values, words)
}
