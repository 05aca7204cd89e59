//! Wrong reports.

use super::{change, OfReport, Variant};
use crate::counts::MAX_COUNT;
use crate::figures::line;
use crate::Reporting;

pub const WRONG: [Variant<OfReport>; 18] = [
    ("10 comes before 9", |before, _, answer| {
        change(answer, 9, 10, largest(before) > MAX_COUNT);
    }),
    ("6 comes before 9", |before, _, answer| {
        change(answer, 9, 6, missing(before) > 0);
    }),
    ("6 comes before 10", |before, _, answer| {
        change(answer, 10, 6, missing(before) > 0);
    }),
    ("no runs are accepted", |before, _, answer| {
        let lengths = [&before.live, &before.records].map(|lent| lent.words().len());
        change(answer, 9, 0, lengths == [0, 0]);
    }),
    ("extra record counts are left out", |before, _, answer| {
        let (live, records) = (before.live.words().len(), before.records.words().len());
        change(answer, 9, 0, live < records);
    }),
    ("only live counts are looked at", |before, _, answer| {
        let is_above = |&count: &u64| count > MAX_COUNT;
        change(answer, 10, 0, !before.live.words().iter().any(is_above));
    }),
    ("a count of 2^32 is refused", |before, _, answer| {
        change(answer, 0, 10, largest(before) == MAX_COUNT);
    }),
    ("a count of 2^32 + 1 is accepted", |before, _, answer| {
        change(answer, 10, 0, largest(before) == MAX_COUNT + 1);
    }),
    ("a room of 51 bytes is wanted", |before, _, answer| {
        change(answer, 0, 6, before.line.words().len() < 51);
    }),
    ("the line feed needs no room", |before, _, answer| {
        change(answer, 6, 0, missing(before) == 1);
    }),
    ("the mean is cut off", |before, after, answer| {
        print(before, after, answer, |[runs, live, _, mean]| {
            *mean = 100 * *live / *runs;
        });
    }),
    ("a half goes down", |before, after, answer| {
        print(before, after, answer, |figures| {
            figures[3] -= u128::from(is_half(figures));
        });
    }),
    ("a half goes to even", |before, after, answer| {
        print(before, after, answer, |figures| {
            figures[3] -= u128::from(is_half(figures)) * (figures[3] % 2);
        });
    }),
    ("the sums change places", |before, after, answer| {
        print(before, after, answer, |figures| figures.swap(1, 2));
    }),
    ("there is no line feed", |before, after, answer| {
        if *answer == 0 {
            let end = &mut after.length.words_mut()[0];
            *end -= 1;
            let at = *end as usize;
            after.line.words_mut()[at] = before.line.words()[at];
        }
    }),
    ("bytes past the line are cleared", |_, after, answer| {
        if *answer == 0 {
            let end = after.length.words()[0] as usize;
            after.line.words_mut()[end..].fill(0);
        }
    }),
    ("a refusal writes the line", |_, after, answer| {
        if *answer > 0 {
            after.line.words_mut().fill(0);
        }
    }),
    ("a refusal writes the length", |_, after, answer| {
        if *answer > 0 {
            after.length.words_mut()[0] = 0;
        }
    }),
];

fn largest(reporting: &Reporting) -> u64 {
    let counts = [&reporting.live, &reporting.records].map(|lent| lent.words());
    counts.concat().into_iter().max().unwrap_or(0)
}

/// How many bytes the buffer lacks.
fn missing(reporting: &Reporting) -> usize {
    let wanted = line(reporting.figures()).len();
    wanted.saturating_sub(reporting.line.words().len())
}

/// Whether two hundredths are equally near.
fn is_half([runs, live, ..]: &[u128; 4]) -> bool {
    200 * live % (2 * runs) == *runs
}

/// An accepted call once more, with other figures, of no more digits.
fn print(before: &Reporting, after: &mut Reporting, answer: &u64, change: impl Fn(&mut [u128; 4])) {
    if *answer == 0 {
        let mut figures = before.figures();
        change(&mut figures);
        after.line = before.line.clone();
        after.print(&line(figures));
    }
}
