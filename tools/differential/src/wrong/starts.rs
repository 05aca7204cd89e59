//! Wrong fresh cursors.

use super::{OfStart, Variant};
use crate::GUARDS;
use magnetar_cpu::Cursor;

pub const WRONG: [Variant<OfStart>; 6] = [
    ("the input is in RAM from word 1 on", |before, after, _| {
        let ram = &mut after.cursor.words_mut()[Cursor::RAM];
        let places = ram[1..].iter_mut();
        places
            .zip(before.input.words())
            .for_each(|(place, word)| *place = *word);
    }),
    ("RAM past the input is left", |before, after, _| {
        let kept = before.input.words().len().min(256);
        let rest = Cursor::RAM.start + kept..Cursor::RAM.end;
        let words = &before.cursor.words()[rest.clone()];
        after.cursor.words_mut()[rest].copy_from_slice(words);
    }),
    (
        "input past the end of RAM begins again",
        |before, after, _| {
            let ram = &mut after.cursor.words_mut()[Cursor::RAM];
            let rest = before.input.words().iter().skip(256);
            ram.iter_mut()
                .zip(rest)
                .for_each(|(place, word)| *place = *word);
        },
    ),
    ("next_fetch is left", |before, after, _| {
        let word = before.cursor.words()[Cursor::NEXT_FETCH];
        after.cursor.words_mut()[Cursor::NEXT_FETCH] = word;
    }),
    ("a word past the cursor is written", |_, after, _| {
        after.cursor.all[GUARDS + Cursor::WORDS] = 0;
    }),
    ("the input is written", |_, after, _| {
        after.input.words_mut().fill(0);
    }),
];
