//! Programs of one word, the longest program, the most rows, the longest calls,
//! and inputs of RAM's size and more.

use super::shifts::SHIFTS;
use crate::asm::{addi, branch, jal, jalr, ld, lui, op, store};
use crate::calllist::{
    padding, segment, Call, CallList, MOST_CYCLES, MOST_INPUT, MOST_ROOM, MOST_ROWS, MOST_WORDS,
};
use crate::words::ECALL;

const RAM: usize = 256;

pub fn lists() -> Vec<CallList> {
    let mut lists: Vec<CallList> = single_words().into_iter().map(single).collect();
    lists.extend([longest_program(), most_rows(), longest_calls()]);
    lists.extend([RAM, RAM + 1, MOST_INPUT].map(inputs));
    lists
}

/// Words of every kind.
fn single_words() -> Vec<u32> {
    let shifts = SHIFTS.map(|(funct7, funct3)| op(funct7, funct3, [2, 0, 2]));
    let others = [
        addi([1, 1], 5),
        ld([1, 1], 0),
        store(3, [1, 0], 0),
        branch(0, [0, 0], -4),
        branch(1, [0, 0], 8),
        lui(1, 0x8_0000),
        jal(1, 0),
        jal(0, 2047),
        jalr([1, 1], 0),
        ECALL,
    ];
    [&shifts[..], &others[..]].concat()
}

/// The row after the last is the first, here the only one.
fn single(word: u32) -> CallList {
    CallList {
        program: vec![word],
        input: vec![8, 16, 0x44],
        calls: vec![segment(2), padding(1), segment(7)],
    }
}

/// The last word is reached by a jump, and then the first one again.
fn longest_program() -> CallList {
    let mut program: Vec<u32> = (0..MOST_WORDS as i64).map(|n| addi([3, 3], n)).collect();
    program[1] = jal(1, 4 * (MOST_WORDS as i64 - 3));
    CallList {
        program,
        input: Vec::new(),
        calls: vec![segment(6), padding(1), segment(3)],
    }
}

/// The last shift is reached by a jump; after its last row comes the first.
fn most_rows() -> CallList {
    let shifts = MOST_ROWS / 6;
    let ones = MOST_ROWS - 6 * shifts;
    let mut program = vec![addi([2, 2], 9); ones];
    program[ones - 1] = jal(1, 4 * (6 * shifts as i64 - 8));
    let shift = |number| {
        let (funct7, funct3) = SHIFTS[number % 3];
        op(funct7, funct3, [3, 2, 2])
    };
    program.extend((0..shifts).map(shift));
    CallList {
        program,
        input: Vec::new(),
        calls: vec![segment(ones as u64 + 6), segment(8)],
    }
}

/// A loop with stores, in calls that are as long as they may be, with the
/// largest buffer and with a full one.
fn longest_calls() -> CallList {
    let widest = Call {
        room: MOST_ROOM,
        ..segment(MOST_CYCLES)
    };
    CallList {
        program: vec![addi([1, 1], 1), store(0, [1, 1], 8), jal(0, -8)],
        input: Vec::new(),
        calls: vec![widest, segment(40), padding(MOST_CYCLES)],
    }
}

/// The first, the last and the word behind are loaded. The numbers are small,
/// because there are so many.
fn inputs(count: usize) -> CallList {
    CallList {
        program: vec![
            ld([1, 0], 0),
            ld([2, 0], 2040),
            addi([3, 0], 2047),
            ld([10, 3], 1),
            ECALL,
        ],
        input: (0..count as u64).map(|number| number + 3).collect(),
        calls: vec![segment(5)],
    }
}
