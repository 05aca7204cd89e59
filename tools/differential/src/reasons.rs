//! The dispatcher's calls by what the number of their answer does not tell.

use crate::dispatch::{next_waiting, BUDGET};
use crate::{Dispatching, Step};

/// A name, and whether a call with this answer is of it.
type Reason = (&'static str, fn(&Dispatching, u64) -> bool);

pub const REASONS: [Reason; 8] = [
    ("add: 11 for the caller", |lent, answer| {
        answer == 11 && matches!(lent.step, Step::Add { caller: 16.., .. })
    }),
    ("add: 11 for the position", |lent, answer| {
        answer == 11 && matches!(lent.step, Step::Add { caller: ..16, .. })
    }),
    ("add: 12, a sum below 2^64", |lent, answer| {
        answer == 12 && lent.sum() < 1 << 64
    }),
    ("add: 12, a sum that would wrap", |lent, answer| {
        answer == 12 && lent.sum() >= 1 << 64
    }),
    ("turn: a slice", |lent, answer| {
        is_turn(lent, answer, [true, true])
    }),
    ("turn: nothing, no budget", |lent, answer| {
        is_turn(lent, answer, [true, false])
    }),
    ("turn: nothing, nobody waits", |lent, answer| {
        is_turn(lent, answer, [false, true])
    }),
    ("turn: nothing, neither", |lent, answer| {
        is_turn(lent, answer, [false, false])
    }),
];

/// Whether it is a turn that is not refused, and somebody waits and budget is left or
/// not.
fn is_turn(lent: &Dispatching, answer: u64, holds: [bool; 2]) -> bool {
    let words = lent.words();
    let is_waiting = next_waiting(words, 0).is_some();
    let found = [is_waiting, words[BUDGET] > 0];
    matches!(lent.step, Step::Turn) && answer == 0 && found == holds
}
