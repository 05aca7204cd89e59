//! The calls that run a machine, by the table of refusals and the reference,
//! and the sameness of cursors, which only the specification has.

use crate::programs::row_word;
use magnetar_cpu::{Cursor, Image, RECORD_WORDS};
use magnetar_reference::expand::{expand_program, ExpandedProgram};
use magnetar_reference::interp::{execute, pad_records, CycleRecord, ExecState, StreamCursor};
use records::pack;

/// The most that cycles and length of a segment may be together.
pub const MAX_TOTAL_CYCLES: u64 = 1 << 62;
/// The most cycles that an execution may have.
pub const MAX_EXECUTE_CYCLES: u64 = 1 << 32;

/// The calls that move a cursor on.
#[derive(Clone, Copy, Debug, PartialEq, Eq)]
pub enum Call {
    Segment,
    Padding,
}

/// Rows, and what the reference runs in their place if they are an
/// expansion.
pub struct Rom {
    pub rows: Vec<u64>,
    pub program: Option<ExpandedProgram>,
}

impl Rom {
    pub fn new(rows: Vec<u64>) -> Self {
        let program = expand_program(&first_rows(&rows));
        let is_expansion = program.rows.iter().map(row_word).eq(rows.iter().copied());
        Rom {
            rows,
            program: is_expansion.then_some(program),
        }
    }

    pub fn of(program: &[u32]) -> Self {
        let program = expand_program(program);
        Rom {
            rows: program.rows.iter().map(row_word).collect(),
            program: Some(program),
        }
    }
}

/// Only a first row is below 2^32, so these words are the one program whose
/// expansion the rows can be.
fn first_rows(rows: &[u64]) -> Vec<u32> {
    let words = rows.iter().filter_map(|&row| u32::try_from(row).ok());
    words.collect()
}

/// The number of the first line of the table that is met, or 0. The lines are
/// `NO_ROWS`, `TOO_MANY_ROWS`, `NO_EXPANSION`, `OUTSIDE_ROWS`, `TOO_MANY_CYCLES`
/// and `SHORT` of the header.
fn lowest(table: [bool; 6]) -> u64 {
    let line = table.iter().position(|&met| met);
    line.map_or(0, |line| line as u64 + 1)
}

/// The number of the refusal, or 0, for a record buffer of `room` words. In
/// u128 nothing wraps.
pub fn refusal(call: Call, rom: &Rom, image: &Image, length: u64, room: usize) -> u64 {
    let rows = rom.rows.len();
    let outside = |place: usize| u128::from(image[place]) >= rows as u128;
    let sum = u128::from(image[Cursor::CYCLES]) + u128::from(length);
    lowest([
        rows == 0,
        rows > 6_291_456,
        rom.program.is_none(),
        outside(Cursor::MICRO_PC) || outside(Cursor::NEXT_FETCH),
        call == Call::Segment && sum > MAX_TOTAL_CYCLES.into(),
        (room as u128) < 17 * u128::from(length),
    ])
}

/// The same of an execution, which has no cursor to be outside.
pub fn execute_refusal(rom: &Rom, max_cycles: u64, room: usize) -> u64 {
    let rows = rom.rows.len();
    lowest([
        rows == 0,
        rows > 6_291_456,
        rom.program.is_none(),
        false,
        max_cycles > MAX_EXECUTE_CYCLES,
        (room as u128) < 17 * u128::from(max_cycles).next_power_of_two(),
    ])
}

/// Writes records to the first places of a buffer.
pub fn write_log(log: &[CycleRecord], records: &mut [u64]) {
    for (record, place) in log.iter().zip(records.chunks_exact_mut(RECORD_WORDS)) {
        place.copy_from_slice(&pack(record));
    }
}

/// What must agree, as T-05 of 02 has it: every field but cycles.
pub fn is_same(a: &Image, b: &Image) -> bool {
    let agrees = |place: usize| match place {
        Cursor::CYCLES => true,
        Cursor::HALTED => (a[place] != 0) == (b[place] != 0),
        _ => a[place] == b[place],
    };
    (0..Cursor::WORDS).all(agrees)
}

/// An accepted execution by the reference: its records and its last cursor.
/// Only live cycles count in the cursor's cycles.
pub fn execute_reference(
    rows: &[u64],
    input: &[u64],
    max_cycles: usize,
) -> (Vec<CycleRecord>, StreamCursor) {
    let trace = execute(&first_rows(rows), input, max_cycles);
    let last = trace.records.last().expect("at least one record");
    let cursor = StreamCursor {
        next_fetch: last.next_pc,
        st: trace.final_state,
    };
    (trace.records, cursor)
}

/// An accepted call by the reference.
pub fn run_reference(
    call: Call,
    program: &ExpandedProgram,
    cursor: &mut StreamCursor,
    length: usize,
) -> Vec<CycleRecord> {
    match call {
        Call::Segment => cursor.run_segment(program, length),
        Call::Padding => {
            let last = CycleRecord {
                next_pc: cursor.next_fetch,
                ..Default::default()
            };
            let mut records = vec![last];
            pad_records(&mut records, &mut cursor.st, program, length + 1);
            records.split_off(1)
        }
    }
}

/// The reference's cursor of an image whose rows are inside.
pub fn cursor_of(image: &Image) -> StreamCursor {
    let count = |place: usize| usize::try_from(image[place]).expect("a usize of 64 bits");
    StreamCursor {
        st: ExecState {
            regs: std::array::from_fn(|at| image[Cursor::REGS.start + at]),
            ram: image[Cursor::RAM].to_vec(),
            micro_pc: count(Cursor::MICRO_PC),
            cycles: count(Cursor::CYCLES),
            halted: image[Cursor::HALTED] != 0,
            output: image[Cursor::OUTPUT],
        },
        next_fetch: count(Cursor::NEXT_FETCH),
    }
}

pub fn image_of(cursor: &StreamCursor) -> Image {
    let mut image = [0; Cursor::WORDS];
    image[Cursor::REGS].copy_from_slice(&cursor.st.regs);
    image[Cursor::RAM].copy_from_slice(&cursor.st.ram);
    image[Cursor::MICRO_PC] = cursor.st.micro_pc as u64;
    image[Cursor::CYCLES] = cursor.st.cycles as u64;
    image[Cursor::HALTED] = u64::from(cursor.st.halted);
    image[Cursor::OUTPUT] = cursor.st.output;
    image[Cursor::NEXT_FETCH] = cursor.next_fetch as u64;
    image
}

#[cfg(test)]
mod tests {
    use super::*;
    use crate::{program, register_shift, Lend, Rng, Running, ADDI, ECALL, SLL};

    /// The records of `ADDI` and `ECALL` that the specification prints.
    const FIRST: [u64; 17] = [0, 0, 0, 5, 0, 10, 0, 0, 0, 0, 0, 1, 0, 5, 5, 0, 327680];
    const SECOND: [u64; 17] = [1, 5, 0, 5, 0, 32, 0, 0, 0, 0, 0, 1, 5, 0, 5, 0, 134217728];

    #[test]
    fn the_records_of_the_specification() {
        let rom = Rom::of(&[ADDI, ECALL]);
        let blank = [0; Cursor::WORDS];
        let mut running = Running::new(Call::Segment, &rom, &blank, 2, 34, &mut Rng::new(1));
        assert_eq!(running.model(), 0);
        assert_eq!(running.records.words(), [FIRST, SECOND].concat());
        let cursor = Cursor::new(running.image());
        assert_eq!((cursor.cycles(), cursor.output()), (2, 5));
        assert_eq!((cursor.micro_pc(), cursor.next_fetch()), (1, 1));
        assert!(cursor.is_halted());
    }

    /// 0 cycles of the program are padded to one, a latch of row 0.
    #[test]
    fn padding_of_a_live_machine() {
        let rom = Rom::of(&[ADDI, ECALL]);
        let mut image = [0; Cursor::WORDS];
        image[10] = 3;
        let mut running = Running::new(Call::Padding, &rom, &image, 1, 17, &mut Rng::new(1));
        assert_eq!(running.model(), 0);
        let latch = [0, 0, 0, 0, 3, 10, 0, 0, 0, 0, 0, 0, 0, 0, 0, 0, 134217728];
        assert_eq!(running.records.words(), latch);
        assert_eq!(running.image(), [0; Cursor::WORDS]);
    }

    #[test]
    fn rows_are_an_expansion_or_not() {
        let shifts = program(9, &mut Rng::new(1), register_shift);
        let mut rom = Rom::new(Rom::of(&shifts).rows);
        assert_eq!(rom.program.map(|program| program.rows.len()), Some(54));
        rom.rows.pop();
        assert!(Rom::new(rom.rows).program.is_none());
    }

    /// A cursor and buffer that nothing is wrong with, and one change each.
    #[test]
    fn the_table_of_refusals() {
        let rom = Rom::of(&[ADDI, SLL]);
        let answer = |call, rom: &Rom, place: usize, word, length, room| {
            let mut image = [0; Cursor::WORDS];
            image[place] = word;
            refusal(call, rom, &image, length, room)
        };
        for call in [Call::Segment, Call::Padding] {
            let at = |place, word| answer(call, &rom, place, word, 2, 34);
            assert_eq!(at(Cursor::OUTPUT, u64::MAX), 0);
            assert_eq!((at(Cursor::MICRO_PC, 6), at(Cursor::MICRO_PC, 7)), (0, 4));
            assert_eq!(
                (at(Cursor::NEXT_FETCH, 6), at(Cursor::NEXT_FETCH, 7)),
                (0, 4)
            );
            assert_eq!(answer(call, &rom, 0, 0, 2, 33), 6);
            assert_eq!(answer(call, &rom, 0, 0, u64::MAX / 17 + 1, 34), 6);
            assert_eq!(answer(call, &Rom::new(vec![]), 0, 0, 2, 34), 1);
            assert_eq!(answer(call, &Rom::new(vec![1 << 32]), 0, 0, 2, 34), 3);
        }
        let cycles = |call, cycles| answer(call, &rom, Cursor::CYCLES, cycles, 2, 34);
        assert_eq!(cycles(Call::Segment, (1 << 62) - 2), 0);
        assert_eq!(cycles(Call::Segment, (1 << 62) - 1), 5);
        assert_eq!(cycles(Call::Segment, u64::MAX), 5);
        assert_eq!(cycles(Call::Padding, u64::MAX), 0);
    }

    /// The table of an execution on a good ROM.
    #[test]
    fn the_refusals_of_an_execution() {
        let rom = Rom::of(&[ADDI, SLL]);
        let answer = |max_cycles, room| execute_refusal(&rom, max_cycles, room);
        for (max_cycles, full) in [(0, 17), (1, 17), (2, 34), (3, 68), (4, 68), (5, 136)] {
            assert_eq!(
                (answer(max_cycles, full), answer(max_cycles, full - 1)),
                (0, 6)
            );
        }
        assert_eq!((answer(1 << 32, 0), answer((1 << 32) + 1, 0)), (6, 5));
        assert_eq!(answer(u64::MAX, usize::MAX), 5);
        assert_eq!(execute_refusal(&Rom::new(vec![]), u64::MAX, 0), 1);
        assert_eq!(execute_refusal(&Rom::new(vec![1 << 32]), u64::MAX, 0), 3);
    }

    /// Each word of a cursor alone.
    #[test]
    fn sameness() {
        let image = [7; Cursor::WORDS];
        assert!(is_same(&image, &image));
        for place in 0..Cursor::WORDS {
            let mut other = image;
            other[place] = 8;
            assert_eq!(is_same(&image, &other), [321, 322].contains(&place));
        }
        let mut live = image;
        live[Cursor::HALTED] = 0;
        assert!(!is_same(&image, &live));
    }
}
