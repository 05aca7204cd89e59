//! Wrong limits of words, rows and runs.

use super::{change, OfExecute, OfExpand, OfReport, OfRun, Variant};
use crate::counts::MAX_RUNS;
use magnetar_cpu::{MAX_PROGRAM_WORDS, MAX_ROWS};

pub const EXPANSIONS: [Variant<OfExpand>; 2] = [
    ("one word too many is accepted", |before, _, answer| {
        let words = before.program.words().len();
        change(answer, 2, 0, words == MAX_PROGRAM_WORDS + 1);
    }),
    ("the most words are refused", |before, _, answer| {
        let words = before.program.words().len();
        change(answer, 0, 2, words == MAX_PROGRAM_WORDS);
    }),
];

pub const CALLS: [Variant<OfRun>; 2] = [
    ("one row too many is accepted", |before, _, answer| {
        change(answer, 2, 0, before.rows.words().len() == MAX_ROWS + 1);
    }),
    ("the most rows are refused", |before, _, answer| {
        change(answer, 0, 2, before.rows.words().len() == MAX_ROWS);
    }),
];

pub const EXECUTIONS: [Variant<OfExecute>; 2] = [
    ("one row too many is accepted", |before, _, answer| {
        change(answer, 2, 0, before.rows.words().len() == MAX_ROWS + 1);
    }),
    ("the most rows are refused", |before, _, answer| {
        change(answer, 0, 2, before.rows.words().len() == MAX_ROWS);
    }),
];

pub const REPORTS: [Variant<OfReport>; 2] = [
    ("one run too many is accepted", |before, _, answer| {
        change(answer, 9, 0, before.live.words().len() == MAX_RUNS + 1);
    }),
    ("the most runs are refused", |before, _, answer| {
        change(answer, 0, 9, before.live.words().len() == MAX_RUNS);
    }),
];
