//! Padding before the first cycle, of a live machine and of a halted one.

use crate::asm::{addi, auipc, branch, jal, jalr, ld, op, store};
use crate::calllist::{padding, segment, Call, CallList};
use crate::words::ECALL;

/// Words of every kind. Where they have a destination, it is x7.
const KINDS: [fn() -> u32; 9] = [
    || addi([7, 7], 3),
    || addi([0, 7], 3),
    || op(0, 1, [7, 5, 6]),
    || ld([7, 0], 8),
    || store(3, [7, 0], 0),
    || branch(0, [5, 6], 8),
    || auipc(7, 1),
    || jal(7, 4),
    || jalr([7, 0], 8),
];

pub fn lists() -> Vec<CallList> {
    let mut lists: Vec<CallList> = KINDS.map(|word| first_row(word())).into();
    lists.extend(KINDS.map(|word| live(word())));
    lists.extend((0..6).map(live_in_shift));
    lists.extend([halted_at_once(), halted_later(), never_run()]);
    lists
}

/// Padding before the first cycle, at a row of this word.
fn first_row(word: u32) -> CallList {
    CallList {
        program: vec![word, addi([10, 7], 1), ECALL],
        input: vec![0x1234, 0x5678],
        calls: vec![padding(2), segment(1), segment(10)],
    }
}

/// Padding of a live machine at a row of this word, whose destination holds
/// something. The machine goes on, and then reads that destination.
fn live(word: u32) -> CallList {
    CallList {
        program: vec![addi([7, 0], 77), word, op(0, 0, [10, 7, 7]), ECALL],
        input: vec![0x1234, 0x5678],
        calls: vec![segment(1), padding(2), segment(1), padding(1), segment(10)],
    }
}

/// Padding of a live machine inside the six rows of a shift.
fn live_in_shift(stage: u64) -> CallList {
    CallList {
        program: vec![
            addi([1, 0], 0x123),
            addi([3, 0], 77),
            op(0, 1, [3, 1, 1]),
            op(0, 0, [10, 0, 3]),
            ECALL,
        ],
        input: vec![9],
        calls: vec![segment(2 + stage), padding(1), segment(9 - stage)],
    }
}

fn halted_at_once() -> CallList {
    CallList {
        program: vec![ECALL],
        input: Vec::new(),
        calls: vec![padding(1), segment(1), padding(2), segment(3), padding(0)],
    }
}

/// The output is not zero, and RAM word 0 is not either.
fn halted_later() -> CallList {
    CallList {
        program: vec![ld([10, 0], 0), addi([9, 9], 1), ECALL],
        input: vec![0xfeed_f00d],
        calls: vec![segment(5), padding(2), segment(2), padding(1)],
    }
}

/// Only padding.
fn never_run() -> CallList {
    let calls: Vec<Call> = [1, 0, 3].map(padding).into();
    CallList {
        program: vec![ld([7, 5], 8), ECALL],
        input: vec![5, 6],
        calls,
    }
}
