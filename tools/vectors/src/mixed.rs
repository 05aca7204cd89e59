//! Random programs in which all kinds of words meet, and values for them.

use crate::asm::{auipc, branch, jal, jalr, load, lui, op, op32, op_imm, op_imm32, store};
use crate::interp::{loads, VALUES};
use crate::words::ECALL;
use rng::Rng;

const LONGEST_PROGRAM: usize = 20;

/// A program, and the input that it begins to load.
pub fn program_and_input(rng: &mut Rng) -> (Vec<u32>, Vec<u64>) {
    let input: Vec<u64> = (0..rng.below(6)).map(|_| value(rng)).collect();
    // Without a load the registers stay small.
    let mut program = loads(input.len().min(3));
    program.extend((0..1 + rng.below(LONGEST_PROGRAM)).map(|_| word(rng)));
    (program, input)
}

/// A boundary, an address, or any number.
pub fn value(rng: &mut Rng) -> u64 {
    match rng.below(3) {
        0 => VALUES[rng.below(VALUES.len())],
        1 => rng.below(2048) as u64,
        _ => rng.doubleword(),
    }
}

/// A word of any opcode; few halt.
pub fn word(rng: &mut Rng) -> u32 {
    let registers = [register(rng), register(rng), register(rng)];
    let [d, left, right] = registers;
    let funct3 = rng.below(8) as u32;
    let funct7 = [0, 0x20, 0, rng.below(128) as u32][rng.below(4)];
    let imm = immediate(rng);
    match rng.below(48) {
        0..8 => op(funct7, funct3, registers),
        8..16 => op_imm(funct3, [d, left], imm),
        16..18 => op32(funct7, funct3, registers),
        18..20 => op_imm32(funct3, [d, left], imm),
        20..24 => op(funct7, [1, 5][rng.below(2)], registers),
        24..29 => load(funct3, [d, left], imm),
        29..35 => store(funct3, [right, left], imm),
        35..39 => branch(funct3, [left, right], distance(rng)),
        39..41 => jal(d, distance(rng)),
        41 => jalr([d, left], imm),
        42..44 => lui(d, i64::from(rng.word())),
        44..46 => auipc(d, i64::from(rng.word())),
        46 => rng.word(),
        _ => ECALL,
    }
}

/// Mostly one of few, so that what is written is also read.
fn register(rng: &mut Rng) -> u32 {
    match rng.below(5) {
        0 => rng.below(32) as u32,
        _ => rng.below(5) as u32,
    }
}

/// Mostly a small one, so that addresses meet.
fn immediate(rng: &mut Rng) -> i64 {
    match rng.below(3) {
        0 => i64::from(rng.word()),
        _ => rng.below(48) as i64 - 16,
    }
}

/// Mostly within the program.
fn distance(rng: &mut Rng) -> i64 {
    match rng.below(5) {
        0 => i64::from(rng.word()),
        _ => rng.below(72) as i64 - 24,
    }
}
