//! Wrong executions.

use super::{change, OfExecute, Variant};
use crate::lending::image_mut;
use crate::machine::{execute_reference, image_of, run_reference, MAX_EXECUTE_CYCLES};
use crate::{Call, Executing, Lend, Lent, GUARDS};
use magnetar_cpu::{Cursor, RECORD_WORDS};
use magnetar_reference::interp::StreamCursor;

pub const WRONG: [Variant<OfExecute>; 21] = [
    ("a limit of 2^32 is refused", |before, _, answer| {
        change(answer, 6, 5, before.max_cycles == MAX_EXECUTE_CYCLES);
    }),
    // No buffer has room for so many cycles.
    ("a higher limit is not refused", |_, _, answer| {
        change(answer, 5, 6, true);
    }),
    ("5 comes before 3", |before, _, answer| {
        change(answer, 3, 5, before.max_cycles > MAX_EXECUTE_CYCLES);
    }),
    (
        "the room is judged by the live count",
        |before, _, answer| {
            if *answer == 6 {
                let needed = words(live_count(before).next_power_of_two());
                change(answer, 6, 0, room(before) >= needed);
            }
        },
    ),
    (
        "the room is that of max_cycles, not rounded",
        |before, _, answer| {
            let needed = words(before.max_cycles.max(1));
            change(answer, 6, 0, room(before) >= needed);
        },
    ),
    ("no cycles need no room", |before, _, answer| {
        change(answer, 6, 0, before.max_cycles == 0);
    }),
    ("a full buffer is short", |before, _, answer| {
        change(answer, 0, 6, room(before) == due(before));
    }),
    ("the live count includes padding", |_, after, answer| {
        if *answer == 0 {
            after.live.words_mut()[0] = after.record_count.words()[0];
        }
    }),
    (
        "the live count leaves out the halting cycle",
        |_, after, answer| {
            let is_halted = after.cursor.words()[Cursor::HALTED] == 1;
            after.live.words_mut()[0] -= u64::from(*answer == 0 && is_halted);
        },
    ),
    (
        "the power of two is above the live count",
        |_, after, answer| {
            if *answer == 0 && after.record_count.words() == after.live.words() {
                after.record_count.words_mut()[0] *= 2;
            }
        },
    ),
    (
        "the record count is that of max_cycles",
        |before, after, answer| {
            if *answer == 0 {
                after.record_count.words_mut()[0] = before.max_cycles.next_power_of_two();
            }
        },
    ),
    ("the input is left out", without_input),
    ("padding shows row 0", padding_of_row_0),
    ("the cursor is that before padding", unpadded_cursor),
    ("cycles count padding", |_, after, answer| {
        if *answer == 0 {
            after.cursor.words_mut()[Cursor::CYCLES] = after.record_count.words()[0];
        }
    }),
    ("next_fetch stays 0", |_, after, answer| {
        if *answer == 0 {
            after.cursor.words_mut()[Cursor::NEXT_FETCH] = 0;
        }
    }),
    (
        "a refused call writes the cursor",
        |before, after, answer| {
            if *answer > 0 {
                let cursor = StreamCursor::start(before.input.words());
                *image_mut(&mut after.cursor) = image_of(&cursor);
            }
        },
    ),
    (
        "a refused call writes the live count",
        |_, after, answer| {
            if *answer > 0 {
                after.live.words_mut()[0] = 0;
            }
        },
    ),
    (
        "a refused call writes the record count",
        |_, after, answer| {
            if *answer > 0 {
                after.record_count.words_mut()[0] = 0;
            }
        },
    ),
    ("a word past the records is written", |_, after, answer| {
        if *answer == 0 {
            let end = RECORD_WORDS * after.record_count.words()[0] as usize;
            let rest = after.records.words_mut()[end..].first_mut();
            rest.into_iter().for_each(|word| *word = 0);
        }
    }),
    ("a word past the live count is written", |_, after, _| {
        after.live.all[GUARDS + 1] = 0;
    }),
];

fn room(executing: &Executing) -> u128 {
    executing.records.words().len() as u128
}

/// The words of so many records.
fn words(records: u64) -> u128 {
    RECORD_WORDS as u128 * u128::from(records)
}

/// The words that the limit needs.
fn due(executing: &Executing) -> u128 {
    RECORD_WORDS as u128 * u128::from(executing.max_cycles).next_power_of_two()
}

/// The live count, or a lower bound of it where the limit is high.
fn live_count(executing: &Executing) -> u64 {
    let max_cycles = executing.max_cycles.min(1000) as usize;
    let input = executing.input.words();
    let (_, cursor) = execute_reference(&executing.rom.rows, input, max_cycles);
    cursor.st.cycles as u64
}

fn without_input(before: &Executing, after: &mut Executing, answer: &mut u64) {
    if *answer == 0 {
        let mut other = before.clone();
        other.input = Lent::new(&[], |_| 0);
        other.model();
        after.records = other.records;
        after.cursor = other.cursor;
        after.live = other.live;
        after.record_count = other.record_count;
    }
}

fn padding_of_row_0(_: &Executing, after: &mut Executing, answer: &mut u64) {
    if *answer == 0 {
        let [live, count] = [&after.live, &after.record_count].map(|lent| lent.words()[0] as usize);
        let records = after.records.words_mut().chunks_exact_mut(RECORD_WORDS);
        let padding = records.take(count).skip(live);
        padding.for_each(|record| record[0] = 0);
    }
}

fn unpadded_cursor(before: &Executing, after: &mut Executing, answer: &mut u64) {
    if *answer == 0 {
        let program = before.rom.program.as_ref().expect("accepted rows");
        let mut cursor = StreamCursor::start(before.input.words());
        let live = after.live.words()[0] as usize;
        run_reference(Call::Segment, program, &mut cursor, live);
        *image_mut(&mut after.cursor) = image_of(&cursor);
    }
}
