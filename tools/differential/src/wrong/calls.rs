//! Segment and padding calls with wrong answers, and such that write what they
//! must not.

use super::{change, OfRun, Variant};
use crate::lending::image_mut;
use crate::machine::MAX_TOTAL_CYCLES;
use crate::{Running, GUARDS};
use magnetar_cpu::{Cursor, RECORD_WORDS};

pub const WRONG: [Variant<OfRun>; 20] = [
    ("5 comes before 4", |before, _, answer| {
        change(answer, 4, 5, sum(before) > MAX_TOTAL_CYCLES.into());
    }),
    ("6 comes before 5", |before, _, answer| {
        change(answer, 5, 6, words(before) > room(before));
    }),
    ("4 comes before 3", |before, _, answer| {
        change(answer, 3, 4, !is_inside(before, Cursor::MICRO_PC));
    }),
    ("a sum of 2^62 is refused", |before, _, answer| {
        change(answer, 0, 5, sum(before) == MAX_TOTAL_CYCLES.into());
    }),
    ("the sum wraps", |before, _, answer| {
        change(
            answer,
            5,
            0,
            wrapped(sum(before)) <= MAX_TOTAL_CYCLES.into(),
        );
    }),
    ("a halted machine has no sum", |before, _, answer| {
        change(answer, 5, 0, before.image()[Cursor::HALTED] != 0);
    }),
    ("length 0 has no sum", |before, _, answer| {
        change(answer, 5, 0, before.length == 0);
    }),
    ("padding has a sum", |before, _, answer| {
        change(answer, 0, 5, sum(before) > MAX_TOTAL_CYCLES.into());
    }),
    ("the words of the records wrap", |before, _, answer| {
        change(answer, 6, 0, wrapped(words(before)) <= room(before));
    }),
    ("a full buffer is short", |before, _, answer| {
        change(answer, 0, 6, words(before) == room(before));
    }),
    ("only micro_pc must be inside", |before, _, answer| {
        change(answer, 4, 0, is_inside(before, Cursor::MICRO_PC));
    }),
    ("only next_fetch must be inside", |before, _, answer| {
        change(answer, 4, 0, is_inside(before, Cursor::NEXT_FETCH));
    }),
    ("the halted word is kept", |before, after, answer| {
        if *answer == 0 && before.image()[Cursor::HALTED] != 0 {
            put(after, Cursor::HALTED, before.image()[Cursor::HALTED]);
        }
    }),
    ("length 0 keeps the halted word", |before, after, _| {
        if before.length == 0 {
            put(after, Cursor::HALTED, before.image()[Cursor::HALTED]);
        }
    }),
    ("a refused call writes the halted word", |_, after, _| {
        let is_halted = after.image()[Cursor::HALTED] != 0;
        put(after, Cursor::HALTED, u64::from(is_halted));
    }),
    ("a refused call writes a record", |_, after, answer| {
        if let (6, Some(word)) = (*answer, after.records.words_mut().first_mut()) {
            *word = 0;
        }
    }),
    ("a word past the records is written", |before, after, _| {
        if words(before) < room(before) {
            after.records.words_mut()[words(before) as usize] = 0;
        }
    }),
    ("a word before the records is written", |_, after, _| {
        after.records.all[GUARDS - 1] = 0;
    }),
    ("a word past the cursor is written", |_, after, _| {
        after.cursor.all[GUARDS + Cursor::WORDS] = 0;
    }),
    ("a row is written", |_, after, _| after.rows.all[GUARDS] = 0),
];

fn sum(running: &Running) -> u128 {
    u128::from(running.image()[Cursor::CYCLES]) + u128::from(running.length)
}

/// How many words the records of the call are.
fn words(running: &Running) -> u128 {
    RECORD_WORDS as u128 * u128::from(running.length)
}

fn room(running: &Running) -> u128 {
    running.records.words().len() as u128
}

fn wrapped(number: u128) -> u128 {
    number & u128::from(u64::MAX)
}

fn is_inside(running: &Running, place: usize) -> bool {
    running.image()[place] < running.rows.words().len() as u64
}

fn put(running: &mut Running, place: usize, word: u64) {
    image_mut(&mut running.cursor)[place] = word;
}
