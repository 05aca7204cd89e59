//! Wrong last-writer indexes.

use super::{change, OfIndex, Variant};
use crate::index::{is_inside, is_store, joined, latest, records, writes};
use crate::{Indexing, GUARDS};
use magnetar_cpu::{Record, INDEX_PLACES, MAX_RECORDS, NONE};

/// The place of RAM word 0.
const RAM: usize = 64;

pub const WRONG: [Variant<OfIndex>; 28] = [
    ("8 comes after 5", |before, _, answer| {
        change(answer, 8, 5, sum(before) > MAX_RECORDS.into());
    }),
    ("8 comes after 6", |before, _, answer| {
        change(answer, 8, 6, places(before) < INDEX_PLACES);
    }),
    ("8 comes before 7", |before, _, answer| {
        change(answer, 7, 8, !every(before, is_inside));
    }),
    ("6 comes before 5", |before, _, answer| {
        change(answer, 5, 6, places(before) < INDEX_PLACES);
    }),
    ("words past the records are left out", |_, _, answer| {
        change(answer, 7, 0, true);
    }),
    ("only stores have a RAM word", |before, _, answer| {
        let passes =
            |record: &[u64]| record[Record::RD] < 64 && !is_store(record) || is_inside(record);
        change(answer, 8, 0, every(before, passes));
    }),
    ("register 64 is inside", |before, _, answer| {
        let passes = |record: &[u64]| record[Record::RD] <= 64 && record[Record::RAM_ADDR] < 256;
        change(answer, 8, 0, every(before, passes));
    }),
    ("RAM word 256 is inside", |before, _, answer| {
        let passes = |record: &[u64]| record[Record::RD] < 64 && record[Record::RAM_ADDR] <= 256;
        change(answer, 8, 0, every(before, passes));
    }),
    ("register 63 is outside", |before, _, answer| {
        let passes = |record: &[u64]| record[Record::RD] < 63;
        change(answer, 0, 8, !every(before, passes));
    }),
    ("RAM word 255 is outside", |before, _, answer| {
        let passes = |record: &[u64]| record[Record::RAM_ADDR] < 255;
        change(answer, 0, 8, !every(before, passes));
    }),
    ("the sum wraps", |before, _, answer| {
        let wrapped = sum(before) & u128::from(u64::MAX);
        change(answer, 5, 0, wrapped <= MAX_RECORDS.into());
    }),
    ("only the records before count", |before, _, answer| {
        change(answer, 5, 0, before.earlier <= Some(MAX_RECORDS));
    }),
    ("a sum of 2^62 is refused", |before, _, answer| {
        change(answer, 0, 5, sum(before) == MAX_RECORDS.into());
    }),
    ("319 places are enough", |before, _, answer| {
        change(answer, 6, 0, places(before) == INDEX_PLACES - 1);
    }),
    ("320 places are short", |before, _, answer| {
        change(answer, 0, 6, places(before) == INDEX_PLACES);
    }),
    ("the first record counts", |before, after, answer| {
        enter(before, after, answer, |log, place| {
            records(log).position(|record| writes(record, place))
        });
    }),
    ("loads write RAM", |before, after, answer| {
        enter(before, after, answer, |log, place| {
            records(log).rposition(|record| match place {
                0..RAM => writes(record, place),
                _ => record[Record::PACKED] & Record::IS_LOAD != 0 && names(record, place),
            })
        });
    }),
    ("every record writes RAM", |before, after, answer| {
        enter(before, after, answer, |log, place| {
            records(log).rposition(|record| writes(record, place) || names(record, place))
        });
    }),
    ("stores write no register", |before, after, answer| {
        enter(before, after, answer, |log, place| {
            let is_left = |record: &[u64]| place < RAM && is_store(record);
            records(log).rposition(|record| writes(record, place) && !is_left(record))
        });
    }),
    ("the RAM words come first", |_, after, answer| {
        if *answer == 0 {
            after.index.words_mut()[..INDEX_PLACES].rotate_left(RAM);
        }
    }),
    ("earlier records are left out", |before, after, answer| {
        if *answer == 0 {
            enter_first(before, after);
        }
    }),
    ("positions begin at 1", |before, after, answer| {
        enter(before, after, answer, |log, place| {
            latest(log, place).map(|record| record + 1)
        });
    }),
    (
        "adding clears what nothing writes",
        |before, after, answer| {
            each_unwritten(before, *answer, |at| after.index.words_mut()[at] = NONE);
        },
    ),
    (
        "building keeps what nothing writes",
        |before, after, answer| {
            each_unwritten(before, *answer, |at| {
                after.index.words_mut()[at] = before.index.words()[at];
            });
        },
    ),
    ("a refused log is entered", |before, after, answer| {
        if *answer > 0 && places(before) >= INDEX_PLACES {
            enter_first(before, after);
        }
    }),
    ("a place past the index is written", |_, after, answer| {
        if let (0, Some(place)) = (*answer, after.index.words_mut().get_mut(INDEX_PLACES)) {
            *place = NONE;
        }
    }),
    ("a word before the index is written", |_, after, _| {
        after.index.all[GUARDS - 1] = 0;
    }),
    ("the log is written", |_, after, _| {
        after.log.words_mut().fill(0);
    }),
];

fn sum(indexing: &Indexing) -> u128 {
    joined(indexing.log.words(), indexing.earlier.unwrap_or(0))
}

fn places(indexing: &Indexing) -> usize {
    indexing.index.words().len()
}

fn every(indexing: &Indexing, passes: impl Fn(&[u64]) -> bool) -> bool {
    records(indexing.log.words()).all(passes)
}

/// Whether word 6 names the RAM word of a place.
fn names(record: &[u64], place: usize) -> bool {
    record[Record::RAM_ADDR].checked_add(RAM as u64) == Some(place as u64)
}

/// An accepted call once more, with other records that wrote the places.
fn enter(
    before: &Indexing,
    after: &mut Indexing,
    answer: &u64,
    position: impl Fn(&[u64], usize) -> Option<usize>,
) {
    if *answer == 0 {
        after.index = before.index.clone();
        after.enter(position);
    }
}

/// The index as if no record came before.
fn enter_first(before: &Indexing, after: &mut Indexing) {
    let mut first = before.clone();
    first.earlier = before.earlier.map(|_| 0);
    first.enter(latest);
    after.index = first.index;
}

/// The places of an accepted call that no record writes.
fn each_unwritten(before: &Indexing, answer: u64, change: impl FnMut(usize)) {
    if answer == 0 {
        let all = 0..INDEX_PLACES;
        let unwritten = all.filter(|&place| latest(before.log.words(), place).is_none());
        unwritten.for_each(change);
    }
}
