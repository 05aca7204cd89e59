//! One loop run in segments, timed in the reference and in the library.

use crate::mix::timed;
use differential::{image_of, pack, Expansion};
use magnetar_cpu::{padding, segment, start, Cursor, Refusal, RECORD_WORDS};
use magnetar_reference::expand::{expand_program, ExpandedProgram};
use magnetar_reference::interp::{CycleRecord, StreamCursor};
use std::hint::black_box;
use std::time::Duration;

/// The cycles that a round times in a row: several segments of each length, of
/// which the first finds its memory displaced by others.
const CYCLES_A_ROUND: usize = 1 << 18;
/// The segments that are compared first. After them the reference's allocator keeps
/// what it frees, and later segments get the same memory again.
const COMPARED: usize = 3;

/// A program, and the library's call that runs it.
pub struct Loop {
    pub name: &'static str,
    pub program: &'static [u32],
    pub call: Call,
}

type Call = fn(&[u64], &mut Cursor, u64, &mut [u64]) -> Result<(), Refusal>;

pub const ALU: Loop = Loop {
    name: "ALU",
    program: &[
        0x0010_8093, // addi x1,x1,1
        0x0011_0133, // add x2,x2,x1
        0x0021_c1b3, // xor x3,x3,x2
        0x4011_8233, // sub x4,x3,x1
        0x0032_1293, // slli x5,x4,3
        0x0032_e333, // or x6,x5,x3
        0x0061_33b3, // sltu x7,x2,x6
        0xfe5f_f06f, // jal x0,.-28
    ],
    call: segment,
};

/// Programs that loop without end, and one that halts. A target counts rows, of
/// which a register shift has six.
pub const LOOPS: [Loop; 6] = [
    ALU,
    Loop {
        name: "load and store",
        program: &[
            0x0000_b103, // ld x2,0(x1)
            0x0020_b423, // sd x2,8(x1)
            0x0030_c183, // lbu x3,3(x1)
            0x0030_9aa3, // sh x3,21(x1)
            0x0120_d203, // lhu x4,18(x1)
            0x0040_ae23, // sw x4,28(x1)
            0x0080_8093, // addi x1,x1,8
            0xfe5f_f06f, // jal x0,.-28
        ],
        call: segment,
    },
    Loop {
        name: "register shifts",
        program: &[
            0x0011_11b3, // sll x3,x2,x1
            0x0011_d233, // srl x4,x3,x1
            0x4011_d2b3, // sra x5,x3,x1
            0x0010_8093, // addi x1,x1,1
            0xfb5f_f06f, // jal x0,.-76
        ],
        call: segment,
    },
    Loop {
        name: "mixed, branches",
        program: &[
            0x1234_50b7, // lui x1,0x12345
            0x0011_0113, // addi x2,x2,1
            0x0071_7193, // andi x3,x2,7
            0x0001_8663, // beq x3,x0,.+12
            0x0020_80b3, // add x1,x1,x2
            0x0011_3023, // sd x1,0(x2)
            0x0001_4203, // lbu x4,0(x2)
            0x0032_12b3, // sll x5,x4,x3
            0x0000_1317, // auipc x6,1
            0x0040_03ef, // jal x7,.+4
            0xfc01_12e3, // bne x2,x0,.-60
        ],
        call: segment,
    },
    Loop {
        name: "halted, segment",
        program: &HALTING,
        call: segment,
    },
    Loop {
        name: "halted, padding",
        program: &HALTING,
        call: padding,
    },
];

/// addi x10,x0,5, and ecall.
const HALTING: [u32; 2] = [0x0050_0513, 0x0000_0073];

/// What runs a segment: the reference, the reference with its records packed into
/// words, or the library.
#[derive(Clone, Copy, Debug, PartialEq)]
pub enum Side {
    Reference,
    Packed,
    Library,
}

impl Side {
    const ALL: [Side; 3] = [Side::Reference, Side::Packed, Side::Library];

    pub fn named(name: &str) -> Option<Side> {
        match name {
            "rust" => Some(Side::Reference),
            "packed" => Some(Side::Packed),
            "library" => Some(Side::Library),
            _ => None,
        }
    }
}

/// A loop, a cursor of the reference and one of the library, their buffers, and the
/// best times of a segment so far.
pub struct Machine {
    pub name: &'static str,
    pub cycles: usize,
    call: Call,
    rows: Vec<u64>,
    program: ExpandedProgram,
    cursor: Cursor,
    reference_cursor: StreamCursor,
    records: Vec<u64>,
    packed_records: Vec<u64>,
    best: [Duration; 3],
}

impl Machine {
    pub fn new(of: &Loop, cycles: usize) -> Result<Machine, String> {
        Machine::of_program(of, of.program, cycles)
    }

    /// Runs another program by the loop's call. An error if reference and library do
    /// not agree on the first segments.
    pub fn of_program(of: &Loop, program: &[u32], cycles: usize) -> Result<Machine, String> {
        let input: Vec<u64> = (0..256).map(|word| word << 32 | word).collect();
        let mut machine = Machine {
            name: of.name,
            cycles,
            call: of.call,
            rows: Expansion::of(program).rows,
            program: expand_program(program),
            cursor: start(&input),
            reference_cursor: StreamCursor::start(&input),
            records: vec![0; cycles * RECORD_WORDS],
            packed_records: vec![0; cycles * RECORD_WORDS],
            best: [Duration::MAX; 3],
        };
        if program == HALTING {
            machine.halt().map_err(|refusal| refusal.to_string())?;
        }
        for _ in 0..COMPARED {
            machine.run_packed();
            let answer = machine.run_library();
            let is_same = *machine.cursor.image() == image_of(&machine.reference_cursor);
            if answer.is_err() || !is_same || machine.records != machine.packed_records {
                return Err(format!("{}: the library's call is wrong", of.name));
            }
        }
        Ok(machine)
    }

    /// Runs both machines until they halt, so that only padding is timed.
    fn halt(&mut self) -> Result<(), Refusal> {
        let cycles = HALTING.len();
        self.reference_cursor.run_segment(&self.program, cycles);
        segment(
            &self.rows,
            &mut self.cursor,
            cycles as u64,
            &mut self.records,
        )
    }

    fn run_reference(&mut self) -> Vec<CycleRecord> {
        let program = black_box(&self.program);
        self.reference_cursor.run_segment(program, self.cycles)
    }

    /// Gives the records too, so that the caller drops them untimed.
    fn run_packed(&mut self) -> Vec<CycleRecord> {
        let records = self.run_reference();
        let places = self.packed_records.chunks_exact_mut(RECORD_WORDS);
        for (record, place) in records.iter().zip(places) {
            place.copy_from_slice(&pack(record));
        }
        records
    }

    fn run_library(&mut self) -> Result<(), Refusal> {
        let (rows, cycles) = (black_box(&self.rows), self.cycles as u64);
        (self.call)(rows, &mut self.cursor, cycles, &mut self.records)
    }

    /// Runs a segment and drops what it gives.
    pub fn run(&mut self, side: Side) {
        match side {
            Side::Reference => drop(black_box(self.run_reference())),
            Side::Packed => drop(black_box(self.run_packed())),
            Side::Library => drop(black_box(self.run_library())),
        }
    }

    /// Times each side in turn, several segments in a row, so that a segment finds
    /// its memory as its own side left it. If the sides took turns by segment,
    /// their buffers would displace each other from the cache, and the side that
    /// computes least would lose most by that.
    pub fn round(&mut self) {
        for side in Side::ALL {
            for _ in 0..CYCLES_A_ROUND.div_ceil(self.cycles) {
                self.time(side);
            }
        }
    }

    /// Times one segment of each side in turn, after others' words have displaced
    /// its memory from the cache.
    pub fn cold_round(&mut self, others: &mut [u64]) {
        for side in Side::ALL {
            displace(others);
            self.time(side);
        }
    }

    fn time(&mut self, side: Side) {
        let time = match side {
            Side::Reference => timed(|| self.run_reference()).0,
            Side::Packed => timed(|| self.run_packed()).0,
            Side::Library => timed(|| self.run_library()).0,
        };
        let best = &mut self.best[side as usize];
        *best = time.min(*best);
    }

    pub fn rows(&self) -> usize {
        self.rows.len()
    }

    /// The speed of the reference, of the reference with packed records, and of the
    /// library.
    pub fn records_per_microsecond(&self) -> [f64; 3] {
        let speed = |time: Duration| self.cycles as f64 / time.as_secs_f64() / 1e6;
        self.best.map(speed)
    }
}

/// Reads and writes every word. A plain fill may go past the cache.
fn displace(others: &mut [u64]) {
    for word in black_box(others) {
        *word = word.wrapping_add(1);
    }
}

#[cfg(test)]
mod tests {
    use super::*;
    use std::collections::HashSet;

    fn is_timed(machine: &Machine) -> bool {
        machine.best.iter().all(|&time| time < Duration::MAX)
    }

    #[test]
    fn a_round_times_every_side() {
        let mut machine = Machine::new(&ALU, 1000).expect("answers that agree");
        assert!(!is_timed(&machine));
        machine.round();
        assert!(is_timed(&machine));
    }

    #[test]
    fn a_cold_round_displaces_memory_before_every_side() {
        let mut machine = Machine::new(&ALU, 1000).expect("answers that agree");
        let mut others = [0; 100];
        machine.cold_round(&mut others);
        assert!(is_timed(&machine));
        assert_eq!(others, [3; 100]);
    }

    /// A loop that left rows out would time something else than its name says.
    #[test]
    fn loops_run_all_their_rows() {
        for of in &LOOPS {
            let mut machine = Machine::new(of, 1000).expect("answers that agree");
            let records = machine.run_reference();
            let visited: HashSet<usize> = records.iter().map(|record| record.micro_pc).collect();
            let is_halting = of.program == HALTING;
            let rows = if is_halting { 1 } else { machine.rows.len() };
            assert_eq!(visited.len(), rows, "{}", of.name);
            assert_eq!(machine.cursor.is_halted(), is_halting, "{}", of.name);
        }
    }
}
