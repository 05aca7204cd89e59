//! Reads the list of calls, for the tests of what is in it.

use super::listing;
use crate::callline::{numbers, CALLS};
use crate::calllist::Call;
use crate::calllist::CallKind::{self, Padding, Segment};
use crate::list::fed_lines;
use magnetar_reference::expand::{expand_program, RomRow, VirtualKind};
use std::collections::HashSet;
use std::hash::Hash;
use std::sync::LazyLock;

/// What a list of calls says.
pub struct Told {
    pub words: Vec<u32>,
    pub inputs: usize,
    pub rows: Vec<RomRow>,
    pub calls: Vec<ToldCall>,
}

/// A call, what it returned, its records, and the cursors before and after it:
/// micro_pc, cycles, halted, output and next_fetch.
pub struct ToldCall {
    pub call: Call,
    pub code: u64,
    pub records: Vec<[u64; 17]>,
    pub before: [u64; 5],
    pub after: [u64; 5],
    pub changed_registers: Vec<[u64; 2]>,
}

/// A record beside its row.
pub struct Cycle<'a> {
    pub row: &'a RomRow,
    pub record: &'a [u64; 17],
}

pub static TOLD: LazyLock<Vec<Told>> = LazyLock::new(|| {
    let list = listing();
    let parts = CALLS.parts(list.as_bytes()).into_iter();
    parts.map(|part| told(&list.as_bytes()[part])).collect()
});

fn told(part: &[u8]) -> Told {
    let mut words: Vec<u32> = Vec::new();
    let mut inputs = 0;
    let mut calls: Vec<ToldCall> = Vec::new();
    for line in fed_lines(part) {
        let before = calls.last().map_or([0; 5], |call| call.after);
        let last = calls.last_mut();
        match line[0] {
            b'l' => {}
            b'w' => words.push(numbers_of::<1>('w', line)[0] as u32),
            b'i' => inputs += 1,
            b's' => calls.push(told_call(Segment, numbers_of('s', line), before)),
            b'p' => calls.push(told_call(Padding, numbers_of('p', line), before)),
            b'r' => last.unwrap().records.push(numbers_of('r', line)),
            b'c' => last.unwrap().after = numbers_of('c', line),
            b'g' => last.unwrap().changed_registers.push(numbers_of('g', line)),
            b'm' => assert_eq!(numbers_of::<2>('m', line)[0] >> 8, 0),
            _ => panic!("a line of another kind"),
        }
    }
    let rows = expand_program(&words).rows;
    Told {
        words,
        inputs,
        rows: rows.into_iter().map(|inst| inst.row).collect(),
        calls,
    }
}

fn numbers_of<const N: usize>(letter: char, line: &[u8]) -> [u64; N] {
    numbers(letter, line).expect("a line of that many numbers")
}

fn told_call(kind: CallKind, numbers: [u64; 3], before: [u64; 5]) -> ToldCall {
    let [length, room, code] = numbers;
    ToldCall {
        call: Call { kind, length, room },
        code,
        records: Vec::new(),
        before,
        after: [0; 5],
        changed_registers: Vec::new(),
    }
}

impl ToldCall {
    pub fn cycles(&self) -> u64 {
        self.before[1]
    }

    pub fn is_halted(&self) -> bool {
        self.before[2] == 1
    }
}

impl Cycle<'_> {
    pub fn opcode(&self) -> u32 {
        self.row.raw & 0x7f
    }

    pub fn funct3(&self) -> u32 {
        (self.row.raw >> 12) & 7
    }

    pub fn imm(&self) -> i64 {
        self.row.imm as i64
    }

    pub fn flag(&self, bit: u32) -> bool {
        self.record[16] >> (16 + bit) & 1 == 1
    }

    /// The target of a jump or a branch before it is brought into the program.
    pub fn far_target(&self) -> i64 {
        self.record[0] as i64 + self.imm() / 4
    }

    /// The sum of rs1 and the immediate does not fit into 64 bits.
    pub fn wraps(&self) -> bool {
        self.record[1].checked_add_signed(self.imm()).is_none()
    }

    pub fn jumps(&self) -> bool {
        self.row.kind == VirtualKind::Jump || self.flag(1)
    }

    /// The stage of a register shift.
    pub fn stage(&self) -> Option<usize> {
        match self.row.kind {
            VirtualKind::ShiftStage { stage } => Some(stage),
            _ => None,
        }
    }
}

pub fn calls() -> impl Iterator<Item = &'static ToldCall> {
    TOLD.iter().flat_map(|list| &list.calls)
}

/// The cycles of a live machine.
pub fn cycles() -> impl Iterator<Item = (&'static Told, Cycle<'static>)> {
    TOLD.iter().flat_map(|list| {
        let segments = list.calls.iter().filter(|call| call.call.kind == Segment);
        segments.flat_map(move |call| {
            // The cycle in which it halts is a live one, too.
            let live = (call.after[1] - call.before[1]) as usize;
            call.records[..live].iter().map(move |record| {
                let row = &list.rows[record[0] as usize];
                (list, Cycle { row, record })
            })
        })
    })
}

/// The different answers to a question about the cycles it is about.
pub fn answers<T: Eq + Hash>(question: impl Fn(&Cycle) -> Option<T>) -> HashSet<T> {
    cycles().filter_map(|(_, cycle)| question(&cycle)).collect()
}

/// How many calls there are of which this is so.
pub fn count(kind: CallKind, so: impl Fn(&ToldCall) -> bool) -> usize {
    calls()
        .filter(|call| call.call.kind == kind && so(call))
        .count()
}
