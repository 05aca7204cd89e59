//! Wrong tests of rows.

use super::{OfIsExpansion, Variant};
use crate::damage::HIGH;
use crate::{Expansion, Rom};

pub const WRONG: [Variant<OfIsExpansion>; 7] = [
    (
        "only three bits of a stage are read",
        |before, _, answer| {
            *answer = judged(few_bits(before.rows.words()));
        },
    ),
    (
        "words of later stages are not compared",
        |before, _, answer| {
            *answer = judged(stages_only(before.rows.words()));
        },
    ),
    (
        "an unfinished shift at the end passes",
        |before, _, answer| {
            *answer = judged(finished(before.rows.words()));
        },
    ),
    ("no rows are no expansion", |before, _, answer| {
        *answer &= u64::from(!before.rows.words().is_empty());
    }),
    ("nothing passes", |_, _, answer| *answer = 0),
    ("all passes", |_, _, answer| *answer = 1),
    ("a row is written", |_, after, _| {
        after.rows.words_mut().fill(0);
    }),
];

fn judged(rows: Vec<u64>) -> u64 {
    u64::from(Rom::new(rows).program.is_some())
}

/// What a judge sees who reads only three bits of the stage.
fn few_bits(rows: &[u64]) -> Vec<u64> {
    rows.iter().map(|row| row & !(HIGH << 3)).collect()
}

/// What a judge sees who does not compare the words of later stages.
fn stages_only(rows: &[u64]) -> Vec<u64> {
    let mut rows = rows.to_vec();
    for at in 1..rows.len() {
        if rows[at] & HIGH != 0 {
            rows[at] = rows[at] & HIGH | rows[at - 1] & !HIGH;
        }
    }
    rows
}

/// What a judge sees who does not mind an unfinished shift at the end.
fn finished(rows: &[u64]) -> Vec<u64> {
    let last = rows.last().copied().unwrap_or(0);
    let stages = Expansion::of(&[last as u32]).rows;
    let missing = stages.iter().filter(|&&stage| stage > last);
    rows.iter().chain(missing).copied().collect()
}
