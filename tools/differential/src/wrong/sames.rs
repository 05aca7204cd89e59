//! Wrong comparisons of cursors.

use super::{OfSame, Variant};
use crate::machine::is_same;
use crate::Comparing;
use magnetar_cpu::{Cursor, Image};

pub const WRONG: [Variant<OfSame>; 13] = [
    ("cycles count", |before, _, answer| {
        count(before, Cursor::CYCLES, answer);
    }),
    ("halted words are compared as words", |before, _, answer| {
        count(before, Cursor::HALTED, answer);
    }),
    ("halted is left out", |before, _, answer| {
        leave_out(before, Cursor::HALTED, answer);
    }),
    ("micro_pc is left out", |before, _, answer| {
        leave_out(before, Cursor::MICRO_PC, answer);
    }),
    ("output is left out", |before, _, answer| {
        leave_out(before, Cursor::OUTPUT, answer);
    }),
    ("next_fetch is left out", |before, _, answer| {
        leave_out(before, Cursor::NEXT_FETCH, answer);
    }),
    ("register 0 is left out", |before, _, answer| {
        leave_out(before, Cursor::REGS.start, answer);
    }),
    ("register 1 is left out", |before, _, answer| {
        leave_out(before, Cursor::REGS.start + 1, answer);
    }),
    ("register 63 is left out", |before, _, answer| {
        leave_out(before, Cursor::REGS.end - 1, answer);
    }),
    ("RAM word 0 is left out", |before, _, answer| {
        leave_out(before, Cursor::RAM.start, answer);
    }),
    ("RAM word 255 is left out", |before, _, answer| {
        leave_out(before, Cursor::RAM.end - 1, answer);
    }),
    ("only lower halves are compared", |before, _, answer| {
        let [a, b] = before
            .images()
            .map(|image| image.map(|word| word & 0xffff_ffff));
        *answer = u64::from(is_same(&a, &b));
    }),
    ("a cursor is written", |_, after, _| {
        after.b.words_mut()[Cursor::HALTED] ^= 1;
    }),
];

/// A word that must not count does.
fn count(before: &Comparing, place: usize, answer: &mut u64) {
    let [a, b] = before.images();
    *answer &= u64::from(a[place] == b[place]);
}

/// A word that must count does not.
fn leave_out(before: &Comparing, place: usize, answer: &mut u64) {
    let [a, b] = before.images();
    let mut alike: Image = *b;
    alike[place] = a[place];
    *answer = u64::from(is_same(a, &alike));
}
