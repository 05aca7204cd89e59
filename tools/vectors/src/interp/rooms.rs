//! Lengths and record buffers at the bounds of what is accepted.

use crate::asm::{addi, jal, ld, store};
use crate::calllist::CallKind::{self, Padding, Segment};
use crate::calllist::{padding, segment, Call, CallList, MAX_TOTAL_CYCLES, MOST_ROOM, RECORD};
use crate::words::ECALL;

const KINDS: [CallKind; 2] = [Segment, Padding];
/// Seventeen times this length is 2^64 + 16: a product that wraps is small.
const WRAPPING: u64 = u64::MAX / RECORD + 1;
/// Lengths that no buffer of a list suffices for.
const HUGE: [u64; 12] = [
    515,
    1 << 32,
    WRAPPING,
    WRAPPING + 1,
    MAX_TOTAL_CYCLES - 1,
    MAX_TOTAL_CYCLES,
    MAX_TOTAL_CYCLES + 1,
    1 << 63,
    u64::MAX - RECORD,
    u64::MAX - 2,
    u64::MAX - 1,
    u64::MAX,
];

pub fn lists() -> Vec<CallList> {
    let mut lists = Vec::new();
    for kind in KINDS {
        lists.push(on_live(nothing(kind)));
        lists.extend([1, 2, 7].map(|length| on_live(around(kind, length))));
        lists.extend([0, 16, 17, MOST_ROOM].map(|room| on_live(huge(kind, room))));
        lists.push(on_halted(nothing(kind)));
        lists.push(on_halted(around(kind, 3)));
        lists.push(on_halted(huge(kind, 34)));
    }
    lists.push(only(Vec::new()));
    for length in [0, 1] {
        lists.push(only(vec![segment(length)]));
        lists.push(only(vec![padding(length)]));
    }
    lists.extend([0, 1, 3].map(|cycles| on_live(at_most_sum(cycles, cycles))));
    lists.extend([0, 3].map(|cycles| on_halted(at_most_sum(cycles, 2))));
    lists
}

/// On a machine that never halts, then one more cycle.
fn on_live(mut calls: Vec<Call>) -> CallList {
    calls.push(segment(1));
    CallList {
        program: vec![addi([7, 7], 3), store(3, [7, 0], 8), jal(0, -8)],
        input: vec![1],
        calls,
    }
}

/// On a machine that halts in its second cycle, before the calls.
fn on_halted(mut calls: Vec<Call>) -> CallList {
    calls.insert(0, segment(3));
    calls.push(segment(1));
    CallList {
        program: vec![ld([10, 0], 0), ECALL],
        input: vec![42],
        calls,
    }
}

/// On a machine that never halts, and nothing more.
fn only(calls: Vec<Call>) -> CallList {
    CallList {
        calls,
        ..on_live(Vec::new())
    }
}

fn call(kind: CallKind, length: u64, room: u64) -> Call {
    Call { kind, length, room }
}

/// No cycles, whatever the buffer.
fn nothing(kind: CallKind) -> Vec<Call> {
    let rooms = [0, 1, 16, 17, MOST_ROOM];
    rooms.map(|room| call(kind, 0, room)).into()
}

/// A buffer of no words, of one word too few, of one too many, and of a record
/// less one word too many. Some are exactly full.
fn around(kind: CallKind, length: u64) -> Vec<Call> {
    let full = RECORD * length;
    let rooms = [0, full - 1, full, full + 1, full + RECORD - 1];
    rooms.map(|room| call(kind, length, room)).into()
}

fn huge(kind: CallKind, room: u64) -> Vec<Call> {
    // The second half comes after a live cycle, if the machine is live.
    let (before, after) = HUGE.split_at(HUGE.len() / 2);
    let calls = |lengths: &[u64]| -> Vec<Call> {
        let huge = lengths.iter().map(|&length| call(kind, length, room));
        huge.collect()
    };
    [calls(before), vec![segment(1)], calls(after)].concat()
}

/// After a call of so many cycles, lengths at which the sum with the counted
/// cycles is the largest that is accepted, and one more. Padding does not count.
fn at_most_sum(cycles: u64, counted: u64) -> Vec<Call> {
    let mut calls = vec![segment(cycles), padding(2)];
    for length in [MAX_TOTAL_CYCLES - counted, MAX_TOTAL_CYCLES - counted + 1] {
        calls.extend(KINDS.map(|kind| call(kind, length, 51)));
    }
    calls
}
