//! Wrong dispatchers.

use super::{change, OfDispatcher, Variant};
use crate::dispatch::{next_waiting, slice, Words, BUDGET, POSITION};
use crate::dispatchers::MAX_WANTED;
use crate::{Dispatching, Step};

pub const STARTS: [Variant<OfDispatcher>; 2] = [
    ("a start leaves the position", |before, after, _| {
        after.words_mut()[POSITION] = before.words()[POSITION];
    }),
    ("a start leaves what caller 15 wants", |before, after, _| {
        after.words_mut()[15] = before.words()[15];
    }),
];

pub const ADDS: [Variant<OfDispatcher>; 9] = [
    ("12 comes before 11", |before, _, answer| {
        change(answer, 11, 12, before.sum() > MAX_WANTED.into());
    }),
    ("caller 16 is one", |before, _, answer| {
        let is_16 = matches!(before.step, Step::Add { caller: 16, .. });
        change(answer, 11, 0, is_16 && before.words()[POSITION] < 16);
    }),
    ("an add takes any position", |before, _, answer| {
        let is_caller = matches!(before.step, Step::Add { caller: 0..16, .. });
        let is_met = is_caller && before.sum() <= MAX_WANTED.into();
        change(answer, 11, 0, is_met);
    }),
    ("the sum wraps", |before, _, answer| {
        let wrapped = before.sum() & u128::from(u64::MAX);
        change(answer, 12, 0, wrapped <= MAX_WANTED.into());
    }),
    ("a sum of 2^32 is refused", |before, _, answer| {
        change(answer, 0, 12, before.sum() == MAX_WANTED.into());
    }),
    ("a sum of 2^32 + 1 is accepted", |before, _, answer| {
        change(answer, 12, 0, before.sum() == u128::from(MAX_WANTED) + 1);
    }),
    ("an add of 0 cycles is accepted", |before, _, answer| {
        let adds_none = matches!(before.step, Step::Add { cycles: 0, .. });
        change(answer, 12, 0, adds_none);
    }),
    ("an add forgets what was wanted", |before, after, answer| {
        if let (Step::Add { caller, cycles }, 0) = (before.step, &*answer) {
            after.words_mut()[caller as usize] = cycles;
        }
    }),
    ("a refused add writes", |before, after, answer| {
        if let (Step::Add { caller, .. }, 12) = (before.step, &*answer) {
            after.words_mut()[caller as usize] = MAX_WANTED;
        }
    }),
];

pub const TURNS: [Variant<OfDispatcher>; 15] = [
    ("the circle stays at the caller", |_, after, answer| {
        if has_grant(after, answer) {
            after.words_mut()[POSITION] = after.caller.words()[0];
        }
    }),
    ("the circle begins at caller 0", |before, after, answer| {
        grant_other(before, after, answer, |words| next_waiting(words, 0));
    }),
    ("the circle ends at caller 15", |before, after, answer| {
        grant_other(before, after, answer, |words| {
            next_waiting(words, words[POSITION]).filter(|&caller| caller >= words[POSITION])
        });
    }),
    ("position 16 comes after 15", |_, after, answer| {
        if has_grant(after, answer) && after.caller.words()[0] == 15 {
            after.words_mut()[POSITION] = 16;
        }
    }),
    ("a slice is up to 4097", |before, after, answer| {
        if has_grant(after, answer) {
            let caller = after.caller.words()[0];
            let [wanted, budget] = [caller as usize, BUDGET].map(|at| before.words()[at]);
            *after = before.clone();
            after.turn(Some((caller, wanted.min(budget).min(4097))));
        }
    }),
    ("the budget is not lowered", |before, after, _| {
        after.words_mut()[BUDGET] = before.words()[BUDGET];
    }),
    ("what is wanted is not lowered", |before, after, _| {
        after.words_mut()[..16].copy_from_slice(&before.words()[..16]);
    }),
    ("no budget moves the circle", |before, after, answer| {
        let caller = next_waiting(before.words(), 0);
        if *answer == 0 && before.words()[BUDGET] == 0 && caller.is_some() {
            move_on(after);
        }
    }),
    ("nobody moves the circle", |before, after, answer| {
        let caller = next_waiting(before.words(), 0);
        if *answer == 0 && before.words()[BUDGET] > 0 && caller.is_none() {
            move_on(after);
        }
    }),
    ("no budget names a caller", |before, after, answer| {
        let words = before.words();
        if *answer == 0 && words[BUDGET] == 0 {
            let caller = next_waiting(words, words[POSITION]);
            after.caller.words_mut()[0] = caller.unwrap_or(16);
        }
    }),
    (
        "nothing granted keeps the slice",
        |before, after, answer| {
            if *answer == 0 && !has_grant(after, answer) {
                after.slice = before.slice.clone();
            }
        },
    ),
    ("position 16 is accepted", |before, _, answer| {
        change(answer, 11, 0, before.words()[POSITION] == 16);
    }),
    ("a turn is refused by 12", |before, _, answer| {
        let is_above = |&wanted: &u64| wanted > MAX_WANTED;
        change(answer, 0, 12, before.words()[..16].iter().any(is_above));
    }),
    ("a refused turn writes the caller", |_, after, answer| {
        if *answer > 0 {
            after.caller.words_mut()[0] = 16;
        }
    }),
    ("a refused turn mends the position", |_, after, answer| {
        if *answer > 0 {
            after.words_mut()[POSITION] = 0;
        }
    }),
];

/// Whether a turn has granted a slice.
fn has_grant(after: &Dispatching, answer: &u64) -> bool {
    *answer == 0 && after.slice.words()[0] > 0
}

/// A turn with a grant once more, but that the caller is found in another way.
fn grant_other(
    before: &Dispatching,
    after: &mut Dispatching,
    answer: &u64,
    find: impl Fn(&Words) -> Option<u64>,
) {
    if has_grant(after, answer) {
        let words = before.words();
        let grant = find(words).map(|caller| (caller, slice(words, caller)));
        *after = before.clone();
        after.turn(grant);
    }
}

fn move_on(after: &mut Dispatching) {
    let position = &mut after.words_mut()[POSITION];
    *position = (*position + 1) % 16;
}
