//! Loads and stores of every funct3 at every offset, and addresses that wrap.

use super::straight;
use crate::asm::{ld, load, store};
use crate::calllist::CallList;

/// The bases come first: they are loaded into x1 to x4.
const INPUT: [u64; 12] = [
    u64::MAX,
    1 << 63,
    0x1800 + 40,
    0xf1e2_d3c4_b5a6_9788,
    0x1122_3344_5566_7788,
    0x0123_4567_89ab_cdef,
    0x8000_0000_0000_0000,
    0x0000_0000_0000_ff80,
    0xffee_ddcc_bbaa_9988,
    0,
    u64::MAX,
    0x8182_8384_8586_8788,
];
/// Registers and immediates of addresses that wrap or fall on the last word.
/// x1 to x3 hold the bases, x0 is zero.
const PLACES: [(u32, i64); 8] = [
    (0, -1),
    (0, -8),
    (0, 2047),
    (0, -2048),
    (1, 1),
    (1, 42),
    (2, -1),
    (3, 3),
];

pub fn lists() -> Vec<CallList> {
    let loads = (0..8).map(loads);
    loads.chain((0..8).map(stores)).collect()
}

fn loads(funct3: u32) -> CallList {
    let offsets = (5..).zip(0..8);
    let offsets = offsets.map(|(d, offset)| load(funct3, [d, 0], 32 + offset));
    // The last word is not zero then.
    let last = store(3, [4, 0], 2040);
    let places = (0..).zip(PLACES).map(|(number, (base, imm))| {
        let d = [0, 20, 21][number % 3];
        load(funct3, [d, base], imm)
    });
    run(offsets.chain([last]).chain(places))
}

fn stores(funct3: u32) -> CallList {
    // A word each, so that all results are seen in RAM.
    let offsets = (0..8).map(|offset| store(funct3, [4, 0], 8 * (4 + offset) + offset));
    let places = PLACES.map(|(base, imm)| store(funct3, [4, base], imm));
    // x0 and the base as what is stored.
    let sources = [store(funct3, [0, 0], 34), store(funct3, [3, 3], 16)];
    let read = [ld([5, 0], 32), ld([6, 0], 2040)];
    run(offsets.chain(places).chain(sources).chain(read))
}

fn run(words: impl IntoIterator<Item = u32>) -> CallList {
    CallList {
        input: INPUT.to_vec(),
        ..straight(&INPUT[..4], words)
    }
}
