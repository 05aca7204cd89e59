//! Random inputs of the program `trace`, from a seed: runs of all kinds of
//! programs, and such inputs with a fault.

use crate::answer::{little_endian, Run, MAX_TRACE_CYCLES, MOST_BYTES};
use crate::asm::{addi, branch, jal, ld};
use crate::formwords;
use crate::interp::{loads, system::HALTING};
use crate::mixed::{self, program_and_input};
use crate::programs::random_word;
use crate::words::ECALL;
use magnetar_reference::expand::{expand_program, VirtualKind};
use rng::Rng;
use std::sync::LazyLock;

const HEADER: usize = 8;
const MOST_WORDS: usize = (MOST_BYTES - HEADER) / 4;
const RAM: usize = 256;
/// Counts the rounds of a loop.
const COUNTER: u32 = 31;

/// Words of the 52 forms with boundary and random operands.
static FORM_WORDS: LazyLock<Vec<u32>> =
    LazyLock::new(|| formwords::all().into_iter().map(|(_, word)| word).collect());

/// The bytes of a random input. One in four is given a fault; some of those
/// stay good all the same.
pub fn any(rng: &mut Rng) -> Vec<u8> {
    let bytes = run(rng).bytes();
    match rng.below(4) {
        0 => faulty(bytes, rng),
        _ => bytes,
    }
}

/// A run with bytes enough for each part, but now and then without a program.
fn run(rng: &mut Rng) -> Run {
    let (program, input) = match rng.below(24) {
        0..8 => program_and_input(rng),
        8..13 => looped(rng),
        13..16 => of_forms(rng),
        16..18 => raw(rng),
        18..20 => halting(rng),
        20 => long(rng),
        21 | 22 => many_inputs(rng),
        _ => (Vec::new(), values(rng.below(4), rng)),
    };
    Run {
        max_cycles: max_cycles(rng),
        input,
        program,
    }
}

/// Often a power of two or next to one.
fn max_cycles(rng: &mut Rng) -> u32 {
    let most = MAX_TRACE_CYCLES as usize;
    let cycles = match rng.below(4) {
        0 => ((1 << rng.below(9)) + rng.below(3) - 1).min(most),
        1 => rng.below(most + 1),
        _ => rng.below(20),
    };
    cycles as u32
}

fn values(count: usize, rng: &mut Rng) -> Vec<u64> {
    (0..count).map(|_| mixed::value(rng)).collect()
}

fn drawn(count: usize, rng: &mut Rng, word: impl Fn(&mut Rng) -> u32) -> Vec<u32> {
    (0..count).map(|_| word(rng)).collect()
}

/// A body that is run over and over: while a register counts down, or always.
/// The counter is compared with x0, which is not zero after a register shift.
fn looped(rng: &mut Rng) -> (Vec<u32>, Vec<u64>) {
    let input = values(1 + rng.below(3), rng);
    let body = drawn(1 + rng.below(8), rng, live_word);
    let back = -4 * (expand_program(&body).len as i64 + 1);
    let mut program = loads(input.len());
    program.push(addi([COUNTER, 0], 1 + rng.below(20) as i64));
    program.extend(body);
    program.push(addi([COUNTER, COUNTER], -1));
    program.push(match rng.below(4) {
        0 => jal(0, back),
        _ => branch(1, [COUNTER, 0], back),
    });
    program.push(ECALL);
    (program, input)
}

fn live_word(rng: &mut Rng) -> u32 {
    loop {
        let word = mixed::word(rng);
        if expand_program(&[word]).rows[0].row.kind != VirtualKind::System {
            return word;
        }
    }
}

fn of_forms(rng: &mut Rng) -> (Vec<u32>, Vec<u64>) {
    let input = values(3, rng);
    let words = drawn(1 + rng.below(30), rng, |rng| {
        FORM_WORDS[rng.below(FORM_WORDS.len())]
    });
    ([loads(3), words].concat(), input)
}

/// Words of any bits, of any opcode, and register shifts.
fn raw(rng: &mut Rng) -> (Vec<u32>, Vec<u64>) {
    let program = drawn(1 + rng.below(12), rng, random_word);
    (program, values(rng.below(4), rng))
}

/// A mixed program in which one word, mostly an early one, halts.
fn halting(rng: &mut Rng) -> (Vec<u32>, Vec<u64>) {
    let (mut program, input) = program_and_input(rng);
    let place = rng.below(program.len().min(8));
    program[place] = HALTING[rng.below(HALTING.len())];
    (program, input)
}

/// As long as the bytes allow, or a little shorter. Every other one jumps to its
/// end first, from where it goes on at its beginning.
fn long(rng: &mut Rng) -> (Vec<u32>, Vec<u64>) {
    let input = values(rng.below(6), rng);
    let length = MOST_WORDS - 2 * input.len() - rng.below(3);
    let mut program = drawn(length, rng, live_word);
    if rng.below(2) == 0 {
        // A word of one row gives its place to another.
        program[0] = ECALL;
        let last = expand_program(&program).len - 1;
        program[0] = jal(1, 4 * (last - rng.below(12)) as i64);
    }
    (program, input)
}

/// Around as many input words as the RAM has, or as the bytes allow. The loads
/// reach all of the RAM.
fn many_inputs(rng: &mut Rng) -> (Vec<u32>, Vec<u64>) {
    let most = MOST_WORDS / 2 - 1;
    let count = match rng.below(3) {
        0 => RAM - 2 + rng.below(5),
        1 => most - rng.below(3),
        _ => rng.below(most + 1),
    };
    let room = MOST_WORDS - 2 * count;
    let program = drawn(1 + rng.below(room.min(16)), rng, |rng| match rng.below(3) {
        0 => mixed::word(rng),
        _ => ld([1 + rng.below(10) as u32, 0], 8 * rng.below(RAM) as i64),
    });
    (program, values(count, rng))
}

fn faulty(mut bytes: Vec<u8>, rng: &mut Rng) -> Vec<u8> {
    let length = bytes.len();
    match rng.below(12) {
        0 | 1 => bytes.truncate(rng.below(length)),
        2 => bytes.truncate(4 * rng.below(length / 4)),
        3 => bytes.extend((0..1 + rng.below(8)).map(|_| rng.word() as u8)),
        4 => bytes.truncate(rng.below(13)),
        5 => {
            // Words that the machine runs, so that it is the length that counts.
            while bytes.len() < MOST_BYTES + 8 {
                bytes.extend(mixed::word(rng).to_le_bytes());
            }
            bytes.truncate(MOST_BYTES - 4 + rng.below(13));
        }
        6 | 7 => put(&mut bytes, 0, many_cycles(rng)),
        8..11 => {
            let count = other_count(length, rng);
            put(&mut bytes, 4, count);
        }
        _ => bytes[rng.below(length)] = rng.word() as u8,
    }
    bytes
}

fn put(bytes: &mut [u8], place: usize, word: u32) {
    bytes[place..place + 4].copy_from_slice(&little_endian(&[word]));
}

fn many_cycles(rng: &mut Rng) -> u32 {
    match rng.below(4) {
        0 => MAX_TRACE_CYCLES + 1,
        // One bit above those of the largest.
        1 => 1 << (9 + rng.below(23)) | rng.below(257) as u32,
        2 => MAX_TRACE_CYCLES + 1 + rng.below(256) as u32,
        _ => rng.word(),
    }
}

/// A count of input words that leaves no program, ends behind the input, or has
/// a double that wraps at 2^32.
fn other_count(length: usize, rng: &mut Rng) -> u32 {
    let most = ((length - HEADER) / 8) as u32;
    let wraps = 1 << 31;
    match rng.below(6) {
        0 => most,
        1 => most + 1,
        2 => most + rng.below(9) as u32,
        3 => wraps + rng.below(most as usize + 1) as u32,
        4 => [wraps - 1, wraps, 1 << 30, u32::MAX - 1, u32::MAX][rng.below(5)],
        _ => rng.word(),
    }
}
