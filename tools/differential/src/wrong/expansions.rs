//! Wrong expansions.

use super::{change, OfExpand, Variant};
use crate::{Expanding, Lent, GUARDS, STAGES};

pub const WRONG: [Variant<OfExpand>; 17] = [
    ("a shift has five rows", five_stages),
    ("starts count words", |_, after, answer| {
        if *answer == 0 {
            let places = after.starts.words_mut().iter_mut();
            let words = places.take(after.program.words().len());
            words.zip(0..).for_each(|(place, word)| *place = word);
        }
    }),
    ("the count is one more", |_, after, answer| {
        after.count.words_mut()[0] += u64::from(*answer == 0);
    }),
    ("the count is that of words", |_, after, answer| {
        if *answer == 0 {
            after.count.words_mut()[0] = after.program.words().len() as u64;
        }
    }),
    ("a refused call writes the count", |_, after, answer| {
        if *answer > 0 {
            after.count.words_mut()[0] = 0;
        }
    }),
    ("a refused call writes rows", |_, after, answer| {
        let rows = after.expansion.rows.iter();
        if *answer > 0 {
            let places = after.rows.words_mut().iter_mut();
            places.zip(rows).for_each(|(place, row)| *place = *row);
        }
    }),
    ("a word past the rows is written", |_, after, answer| {
        let rows = after.expansion.rows.len();
        write_after(&mut after.rows, rows, *answer);
    }),
    ("a word past the starts is written", |_, after, answer| {
        let starts = after.expansion.starts.len();
        write_after(&mut after.starts, starts, *answer);
    }),
    ("a word before the starts is written", |_, after, _| {
        after.starts.all[GUARDS - 1] = 0;
    }),
    ("a word past the count is written", |_, after, _| {
        after.count.all[GUARDS + 1] = 0;
    }),
    ("the program is written", |_, after, _| {
        after.program.words_mut().fill(0);
    }),
    ("no words are accepted", |_, _, answer| {
        change(answer, 1, 0, true);
    }),
    ("a full row buffer is short", |before, _, answer| {
        let full = before.expansion.rows.len();
        change(answer, 0, 6, before.rows.words().len() == full);
    }),
    ("a full start buffer is short", |before, _, answer| {
        let full = before.expansion.starts.len();
        change(answer, 0, 6, before.starts.words().len() == full);
    }),
    ("a row buffer may be one short", |before, _, answer| {
        let full = before.expansion.rows.len();
        let has_starts = before.starts.words().len() >= before.expansion.starts.len();
        let is_one_short = before.rows.words().len() + 1 == full;
        change(answer, 6, 0, has_starts && is_one_short);
    }),
    ("starts need no room", |before, _, answer| {
        let full = before.expansion.rows.len();
        change(answer, 6, 0, before.rows.words().len() >= full);
    }),
    ("six rows a word are needed", |before, _, answer| {
        let most = STAGES * before.program.words().len();
        change(answer, 0, 6, before.rows.words().len() < most);
    }),
];

/// The last stage of every shift is left out.
fn five_stages(_: &Expanding, after: &mut Expanding, answer: &mut u64) {
    if *answer == 0 {
        let rows = after.expansion.rows.iter().copied();
        let rows: Vec<u64> = rows.filter(|row| row >> 32 < STAGES as u64 - 1).collect();
        after.rows.words_mut()[..rows.len()].copy_from_slice(&rows);
        after.count.words_mut()[0] = rows.len() as u64;
    }
}

/// Writes the word after the counted ones, where the buffer has it.
fn write_after(lent: &mut Lent<u64>, counted: usize, answer: u64) {
    if let (0, Some(word)) = (answer, lent.words_mut().get_mut(counted)) {
        *word = 0;
    }
}
