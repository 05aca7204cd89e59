//! Random counts for a report, of few runs.

use crate::random::word;
use crate::Rng;

/// The largest count, and the most runs, that are not refused.
pub const MAX_COUNT: u64 = 1 << 32;
pub const MAX_RUNS: usize = 65_536;

/// So many runs have a mean with half a hundredth wherever their sum is odd.
const HALVES: [usize; 3] = [8, 40, 200];
const FEW_RUNS: usize = 60;

/// The live and the record counts, up to twice damaged.
pub fn lists(rng: &mut Rng) -> [Vec<u64>; 2] {
    let runs = match rng.below(2) {
        0 => HALVES[rng.below(3)],
        _ => rng.below(FEW_RUNS),
    };
    let mut lists = [list(runs, rng), list(runs, rng)];
    (0..rng.below(3)).for_each(|_| damage(&mut lists[rng.below(2)], rng));
    lists
}

/// Up to a largest count, which comes up often.
fn list(runs: usize, rng: &mut Rng) -> Vec<u64> {
    let most = [1, 1000, MAX_COUNT][rng.below(3)];
    let mut count = || [most, rng.doubleword() % (most + 1)][rng.below(2)];
    (0..runs).map(|_| count()).collect()
}

/// Changes the length or, mostly, a count to one that need not be accepted.
fn damage(list: &mut Vec<u64>, rng: &mut Rng) {
    let at = rng.below(list.len() + 1);
    match rng.below(6) {
        0 => list.truncate(at),
        1 => list.insert(at, word(rng)),
        _ => {
            if let Some(count) = list.get_mut(at) {
                *count = [MAX_COUNT, MAX_COUNT + 1, word(rng)][rng.below(3)];
            }
        }
    }
}
