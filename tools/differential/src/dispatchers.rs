//! Random dispatchers and what is told their calls, mostly near where an answer
//! changes.

use crate::dispatch::{wanted, Words, BUDGET, POSITION};
use crate::random::word;
use crate::{Rng, Step};
use std::array;

/// The most that a caller may want.
pub const MAX_WANTED: u64 = 1 << 32;

const EDGES: [u64; 8] = [
    1,
    4095,
    4096,
    4097,
    MAX_WANTED - 1,
    MAX_WANTED,
    MAX_WANTED + 1,
    u64::MAX,
];
/// Some slices.
const FEW_CYCLES: usize = 40_000;

/// Of cycles or of a budget.
pub fn amount(rng: &mut Rng) -> u64 {
    match rng.below(6) {
        0 => word(rng),
        1 | 2 => EDGES[rng.below(EDGES.len())],
        _ => rng.below(FEW_CYCLES) as u64,
    }
}

/// Any words, also such as no list of calls leaves. Often few callers want any.
pub fn words(rng: &mut Rng) -> Words {
    let waiting = [0, 1, 4, 16][rng.below(4)];
    let mut words = array::from_fn(|_| match rng.below(16) < waiting {
        true => amount(rng),
        false => 0,
    });
    words[POSITION] = caller(rng);
    words[BUDGET] = [0, amount(rng), amount(rng), amount(rng)][rng.below(4)];
    words
}

/// A caller or a circle position, mostly one that there is.
fn caller(rng: &mut Rng) -> u64 {
    match rng.below(16) {
        0 => word(rng),
        1 => 16,
        2 => 15,
        _ => rng.below(16) as u64,
    }
}

/// An add or a turn.
pub fn step(words: &Words, rng: &mut Rng) -> Step {
    if rng.below(2) == 0 {
        return Step::Turn;
    }
    let caller = caller(rng);
    let cycles = cycles(wanted(words, caller), rng);
    Step::Add { caller, cycles }
}

/// Now and then none, as many as may be added or one more, or so many that the sum, as
/// a word, would wrap to few.
fn cycles(wanted: u64, rng: &mut Rng) -> u64 {
    let left = MAX_WANTED.wrapping_sub(wanted);
    match rng.below(16) {
        0 => left,
        1 => left.wrapping_add(1),
        2 => wanted.wrapping_neg().wrapping_add(rng.below(4) as u64),
        3 => 0,
        _ => amount(rng),
    }
}
