//! Execute, alone and beside the calls that it stands for.

use crate::guarded::Guarded;
use crate::{shift_rows, with, ADDI, BLANK, ECALL, PRINTED, STAY};
use magnetar_cpu::{execute, padding, records, segment, start, words};
use magnetar_cpu::{Cursor, Refusal, MAX_EXECUTE_CYCLES, MAX_ROWS, RECORD_WORDS};

/// All that is lent to an execution but its rows and its input.
#[derive(Clone, Debug, PartialEq)]
struct Lent {
    records: Guarded<u64>,
    cursor: Guarded<u64>,
    live: Guarded<u64>,
    record_count: Guarded<u64>,
}

impl Lent {
    fn new(room: usize) -> Self {
        Lent {
            records: Guarded::buffer(room),
            cursor: Guarded::buffer(Cursor::WORDS),
            live: Guarded::buffer(1),
            record_count: Guarded::buffer(1),
        }
    }

    fn execute(&mut self, rows: &[u64], input: &[u64], max_cycles: u64) -> u64 {
        let (rows, input) = (Guarded::new(rows), Guarded::new(input));
        let before = (rows.clone(), input.clone());
        let answer = words::execute(
            rows.words(),
            input.words(),
            max_cycles,
            self.records.words_mut(),
            self.cursor.image_mut(),
            &mut self.live.words_mut()[0],
            &mut self.record_count.words_mut()[0],
        );
        assert_eq!((rows, input), before);
        answer
    }
}

/// The answer. A refused call must leave every word, an accepted one those past
/// its records and around what was lent.
fn answer(rows: &[u64], input: &[u64], max_cycles: u64, room: usize) -> u64 {
    let mut lent = Lent::new(room);
    let before = lent.clone();
    let answer = lent.execute(rows, input, max_cycles);
    if answer > 0 {
        assert!(lent == before, "{answer}");
        return answer;
    }
    let written = RECORD_WORDS * lent.record_count.words()[0] as usize;
    let wanted = Lent {
        records: before.records.after(&lent.records.words()[..written]),
        cursor: before.cursor.after(lent.cursor.words()),
        live: before.live.after(lent.live.words()),
        record_count: before.record_count.after(lent.record_count.words()),
    };
    assert_eq!(lent, wanted);
    answer
}

#[test]
fn the_run_that_the_specification_prints() {
    let mut lent = Lent::new(8 * RECORD_WORDS);
    let wanted = Lent {
        records: lent.records.clone().after(&PRINTED.concat()),
        cursor: Guarded::new(&with(&[
            (10, 5),
            (32, 5),
            (Cursor::MICRO_PC, 1),
            (Cursor::CYCLES, 2),
            (Cursor::HALTED, 1),
            (Cursor::OUTPUT, 5),
            (Cursor::NEXT_FETCH, 1),
        ])),
        live: Guarded::new(&[2]),
        record_count: Guarded::new(&[2]),
    };
    assert_eq!(lent.execute(&[ADDI, ECALL].map(u64::from), &[], 8), 0);
    assert_eq!(lent, wanted);
}

/// Once the machine has halted, a larger limit changes nothing.
#[test]
fn larger_limits() {
    let rows = [ADDI, ECALL].map(u64::from);
    for max_cycles in [2, 3, 4, 5, 1000] {
        let mut buffer = vec![7; RECORD_WORDS * 1024];
        let execution = execute(&rows, &[], max_cycles, &mut buffer).expect("accepted");
        assert_eq!((execution.live_count, execution.record_count), (2, 2));
        assert_eq!(buffer[..34], PRINTED.concat());
        assert!(buffer[34..].iter().all(|&word| word == 7));
        assert!(execution.cursor.is_halted());
    }
}

/// No cycles at all give one latch of row 0.
#[test]
fn no_cycles() {
    let mut buffer = [7; RECORD_WORDS + 1];
    let rows = [ADDI, ECALL].map(u64::from);
    let execution = execute(&rows, &[9], 0, &mut buffer).expect("accepted");
    let latch = [0, 0, 0, 0, 0, 10, 0, 9, 0, 0, 0, 0, 0, 0, 0, 0, 1 << 27];
    assert_eq!(buffer, [&latch[..], &[7]].concat()[..]);
    assert_eq!((execution.live_count, execution.record_count), (0, 1));
    let wanted = with(&[(Cursor::RAM.start, 9)]);
    assert_eq!(*execution.cursor.image(), wanted);
}

/// A machine that does not halt is padded too; of the power of two not one more.
#[test]
fn live_machines() {
    let rows = [STAY.into()];
    for (live, count) in [(1, 1), (2, 2), (3, 4), (4, 4), (5, 8), (1023, 1024)] {
        let mut buffer = vec![0; RECORD_WORDS * count];
        let execution = execute(&rows, &[], live, &mut buffer).expect("accepted");
        assert_eq!(execution.live_count, live);
        assert_eq!(execution.record_count, count);
        assert_eq!(execution.cursor.cycles(), live);
        assert!(!execution.cursor.is_halted());
        let latched = records(&buffer).filter(|record| record.halted_latch());
        assert_eq!(latched.count(), count - live as usize);
    }
}

/// Segments of any length and padding after them are one execution.
#[test]
fn segment_by_segment() {
    // addi x1, x1, 1; add x1, x1, x2; jal x0, .-8
    let looped = [0x0010_8093, 0x0020_80b3, 0xff9f_f06f];
    let halting = [&shift_rows()[..], &[ADDI.into(), ECALL.into()]].concat();
    for (rows, live, count) in [(&looped[..], 50, 64), (&halting, 8, 8)] {
        let mut whole = vec![0; RECORD_WORDS * 64];
        let execution = execute(rows, &[3, 4], 50, &mut whole).expect("accepted");
        assert_eq!(execution.live_count, live);
        assert_eq!(execution.record_count, count);
        for length in [1, 2, 3, 7, live] {
            let mut cursor = start(&[3, 4]);
            let mut log = vec![0; RECORD_WORDS * count];
            let (live_part, rest) = log.split_at_mut(RECORD_WORDS * live as usize);
            for part in live_part.chunks_mut(RECORD_WORDS * length as usize) {
                let cycles = (part.len() / RECORD_WORDS) as u64;
                assert_eq!(segment(rows, &mut cursor, cycles, part), Ok(()));
            }
            let left = count as u64 - live;
            assert_eq!(padding(rows, &mut cursor, left, rest), Ok(()));
            assert_eq!(log, whole[..log.len()]);
            assert_eq!(cursor.image(), execution.cursor.image());
        }
    }
}

/// Places for the records of max_cycles, rounded up to a power of two: needed
/// even where the machine halts in its second cycle.
#[test]
fn the_words_of_a_record_buffer() {
    let rows = [ADDI, ECALL].map(u64::from);
    for (max_cycles, count) in [(0, 1), (1, 1), (2, 2), (3, 4), (4, 4), (5, 8), (513, 1024)] {
        let full = 17 * count;
        let rooms = [0, full - 1, full, full + 1];
        let answers = rooms.map(|room| answer(&rows, &[], max_cycles, room));
        assert_eq!(answers, [6, 6, 0, 0], "{max_cycles} cycles");
    }
}

#[test]
fn the_most_cycles() {
    assert_eq!(MAX_EXECUTE_CYCLES, 4_294_967_296);
    let rows = [ADDI, ECALL].map(u64::from);
    for room in [0, 17, 34, 17 * 1024] {
        assert_eq!(answer(&rows, &[], MAX_EXECUTE_CYCLES - 1, room), 6);
        assert_eq!(answer(&rows, &[], MAX_EXECUTE_CYCLES, room), 6);
        assert_eq!(answer(&rows, &[], MAX_EXECUTE_CYCLES + 1, room), 5);
        assert_eq!(answer(&rows, &[], u64::MAX, room), 5);
    }
}

#[test]
fn the_lowest_number_first() {
    let damaged = [1 << 32];
    let mut rows = vec![STAY.into(); MAX_ROWS];
    for (max_cycles, room) in [(1, 17), (1, 0), (u64::MAX, 17), (u64::MAX, 0)] {
        assert_eq!(answer(&[], &[], max_cycles, room), 1);
        assert_eq!(answer(&damaged, &[], max_cycles, room), 3);
    }
    assert_eq!(answer(&rows, &[], 1, 17), 0);
    rows.push(1 << 32);
    assert_eq!(answer(&rows, &[], 1, 17), 2);
    assert_eq!(answer(&rows, &[], u64::MAX, 0), 2);
}

/// Input past the words of RAM is ignored.
#[test]
fn long_inputs() {
    let rows = [ECALL.into()];
    for length in [1, 255, 256, 257, 1000] {
        let input: Vec<u64> = (1..=length).collect();
        assert_eq!(answer(&rows, &input, 1, 17), 0);
        let execution = execute(&rows, &input, 1, &mut [0; 17]).expect("accepted");
        let mut ram = input;
        ram.resize(256, 0);
        assert_eq!(execution.cursor.ram(), ram);
    }
}

/// Slices of Rust that hold nothing point nowhere.
#[test]
fn empty_slices() {
    let rows = [ECALL.into()];
    assert!(execute(&rows, &[], 1, &mut [0; 17]).is_ok());
    let refusals = [
        execute(&[], &[], 1, &mut [0; 17]).err(),
        execute(&[1 << 32], &[], 1, &mut []).err(),
        execute(&rows, &[], u64::MAX, &mut []).err(),
        execute(&rows, &[], 1, &mut []).err(),
    ];
    let wanted = [
        Refusal::NoRows,
        Refusal::NoExpansion,
        Refusal::TooManyCycles,
        Refusal::Short,
    ];
    assert_eq!(refusals, wanted.map(Some));
    let mut cursor = BLANK;
    let (mut live, mut count) = (7, 7);
    let answer = words::execute(&[], &[], 0, &mut [], &mut cursor, &mut live, &mut count);
    assert_eq!((answer, cursor, live, count), (1, BLANK, 7, 7));
}
