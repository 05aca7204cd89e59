//! Damage to rows, after which they mostly are no expansion.

use crate::programs::{any_word, register_shift, stage_word};
use crate::{Rng, STAGES};

/// The bits of a row word that hold the stage.
pub const HIGH: u64 = u64::MAX << 32;

/// Damages rows in one place. There must be one.
pub fn damage(rows: &mut Vec<u64>, rng: &mut Rng) {
    let at = place(rows, rng);
    let near = (at + 1 + rng.below(3)) % rows.len();
    match rng.below(8) {
        0 => rows[at] ^= 1 << rng.below(64),
        1 => drop(rows.remove(at)),
        2 => rows.insert(at, rows[at]),
        3 => rows.swap(at, near),
        4 => rows.truncate(at),
        // A stage of another word.
        5 => rows[at] = rows[at] & HIGH | u64::from(register_shift(rng)),
        // A later stage by itself.
        6 => rows.insert(at, stage_word(any_word(rng), 1 + rng.below(STAGES))),
        _ => rows[at] |= rng.doubleword() & HIGH << rng.below(32),
    }
}

/// A place in the rows, every other time one of a later stage if there is one.
fn place(rows: &[u64], rng: &mut Rng) -> usize {
    let stages: Vec<usize> = (0..rows.len()).filter(|&at| rows[at] & HIGH != 0).collect();
    if stages.is_empty() || rng.below(2) == 0 {
        rng.below(rows.len())
    } else {
        stages[rng.below(stages.len())]
    }
}
