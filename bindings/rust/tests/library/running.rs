//! Segment and padding calls.

use crate::guarded::Guarded;
use crate::{shift_rows, with, ADDI, BLANK, ECALL, PRINTED, STAY};
use magnetar_cpu::{padding, segment, start, words};
use magnetar_cpu::{Cursor, Image, Refusal, MAX_ROWS, MAX_TOTAL_CYCLES, RECORD_WORDS};

type Call = fn(&[u64], &mut Image, u64, &mut [u64]) -> u64;
const CALLS: [Call; 2] = [words::segment, words::padding];

/// Makes a call with guard words around all that is lent. A refused call must
/// leave every word, and no call may write the rows or past its records.
fn answer(call: Call, rows: &[u64], image: Image, length: u64, room: usize) -> u64 {
    let rows = Guarded::new(rows);
    let mut cursor = Guarded::new(&image);
    let mut records = Guarded::buffer(room);
    let before = (rows.clone(), cursor.clone(), records.clone());
    let answer = call(
        rows.words(),
        cursor.image_mut(),
        length,
        records.words_mut(),
    );
    assert_eq!(rows, before.0);
    if answer == 0 {
        let written = RECORD_WORDS * length as usize;
        assert_eq!(records, before.2.after(&records.words()[..written]));
        assert_eq!(cursor, before.1.after(cursor.words()));
    } else {
        assert!(cursor == before.1 && records == before.2, "{answer}");
    }
    answer
}

#[test]
fn the_records_that_the_specification_prints() {
    let rows = [ADDI, ECALL].map(u64::from);
    let mut cursor = start(&[]);
    let mut records = [7; 2 * RECORD_WORDS + 1];
    assert_eq!(segment(&rows, &mut cursor, 2, &mut records), Ok(()));
    assert_eq!(records, [&PRINTED.concat()[..], &[7]].concat()[..]);
    let mut regs = [0; 64];
    (regs[10], regs[32]) = (5, 5);
    assert_eq!(cursor.regs(), regs);
    assert_eq!(cursor.ram(), [0; 256]);
    assert_eq!((cursor.micro_pc(), cursor.next_fetch()), (1, 1));
    assert_eq!((cursor.cycles(), cursor.output()), (2, 5));
    assert!(cursor.is_halted());
}

/// A halted machine is padded by both calls, a live one by the padding call.
#[test]
fn padding_records() {
    let halted = [1, 5, 0, 5, 5, 32, 0, 0, 0, 0, 0, 1, 0, 0, 0, 0, 1 << 27];
    let rows = [ADDI, ECALL].map(u64::from);
    for call in [segment, padding] {
        let mut cursor = start(&[]);
        let mut records = [0; 2 * RECORD_WORDS];
        assert_eq!(segment(&rows, &mut cursor, 2, &mut records), Ok(()));
        let before = *cursor.image();
        assert_eq!(call(&rows, &mut cursor, 2, &mut records), Ok(()));
        assert_eq!(records, [halted, halted].concat()[..]);
        assert_eq!(*cursor.image(), before);
    }
    let mut cursor = Cursor::new(with(&[(10, 3), (Cursor::CYCLES, u64::MAX)]));
    let mut record = [0; RECORD_WORDS];
    assert_eq!(padding(&rows, &mut cursor, 1, &mut record), Ok(()));
    let live = [0, 0, 0, 0, 3, 10, 0, 0, 0, 0, 0, 0, 0, 0, 0, 0, 1 << 27];
    assert_eq!(record, live);
    assert_eq!(*cursor.image(), with(&[(Cursor::CYCLES, u64::MAX)]));
}

#[test]
fn no_rows_and_too_many() {
    let outside = with(&[(Cursor::MICRO_PC, u64::MAX), (Cursor::CYCLES, u64::MAX)]);
    let mut rows = vec![STAY.into(); MAX_ROWS];
    for call in CALLS {
        assert_eq!(answer(call, &[], BLANK, 0, 0), 1);
        assert_eq!(answer(call, &[], outside, u64::MAX, 0), 1);
        assert_eq!(answer(call, &rows, BLANK, 1, 17), 0);
    }
    rows.push(1 << 32);
    for call in CALLS {
        assert_eq!(answer(call, &rows, BLANK, 1, 17), 2);
        assert_eq!(answer(call, &rows, outside, u64::MAX, 0), 2);
    }
}

#[test]
fn rows_that_are_no_expansion() {
    for call in CALLS {
        assert_eq!(answer(call, &shift_rows(), BLANK, 1, 17), 0);
        for place in 0..6 {
            let mut rows = shift_rows();
            rows[place] ^= 1 << 32;
            assert_eq!(answer(call, &rows, BLANK, 1, 17), 3);
            assert_eq!(answer(call, &rows, [u64::MAX; 325], u64::MAX, 0), 3);
        }
    }
}

#[test]
fn the_last_row() {
    let rows = [&shift_rows()[..], &[ADDI.into()]].concat();
    for call in CALLS {
        for place in [Cursor::MICRO_PC, Cursor::NEXT_FETCH] {
            let at = |row| answer(call, &rows, with(&[(place, row)]), 1, 17);
            assert_eq!((at(6), at(7), at(u64::MAX)), (0, 4, 4));
        }
        let all_wrong = with(&[(Cursor::NEXT_FETCH, 7), (Cursor::CYCLES, u64::MAX)]);
        assert_eq!(answer(call, &rows, all_wrong, u64::MAX, 0), 4);
    }
}

#[test]
fn the_sum_of_cycles() {
    const MOST: u64 = MAX_TOTAL_CYCLES;
    assert_eq!(MOST, 4_611_686_018_427_387_904);
    let rows = [STAY.into()];
    // Cycles, length, and the answers of segment and padding call.
    let table = [
        (MOST, 0, 0, 0),
        (MOST + 1, 0, 5, 0),
        (MOST - 2, 2, 0, 0),
        (MOST - 1, 2, 5, 0),
        (0, MOST, 6, 6),
        (0, MOST + 1, 5, 6),
        (1, u64::MAX, 5, 6),
        (u64::MAX, 1, 5, 0),
        (u64::MAX, u64::MAX, 5, 6),
    ];
    for (cycles, length, of_segment, of_padding) in table {
        for halted in [0, 1, u64::MAX] {
            let image = with(&[(Cursor::CYCLES, cycles), (Cursor::HALTED, halted)]);
            let answers = CALLS.map(|call| answer(call, &rows, image, length, 34));
            assert_eq!(answers, [of_segment, of_padding], "{cycles} + {length}");
        }
    }
}

#[test]
fn the_words_of_a_record_buffer() {
    let rows = [STAY.into()];
    for call in CALLS {
        assert_eq!(answer(call, &rows, BLANK, 0, 0), 0);
        for length in [1, 2, 4096] {
            let full = 17 * length as usize;
            let answers =
                [0, full - 1, full, full + 1].map(|room| answer(call, &rows, BLANK, length, room));
            assert_eq!(answers, [6, 6, 0, 0]);
        }
        // 17 times as much wraps to 16.
        assert_eq!(answer(call, &rows, BLANK, u64::MAX / 17 + 1, 34), 6);
    }
    assert_eq!(answer(words::padding, &rows, BLANK, u64::MAX, 34), 6);
}

/// An accepted call writes 0 or 1, also if it runs no cycle.
#[test]
fn the_halted_word() {
    let rows = [STAY.into()];
    for (before, after) in [(0, 0), (1, 1), (2, 1), (u64::MAX, 1)] {
        for call in CALLS {
            for length in [0, 2] {
                let mut image = with(&[(Cursor::HALTED, before)]);
                assert_eq!(call(&rows, &mut image, length, &mut [0; 34]), 0);
                assert_eq!(image[Cursor::HALTED], after);
                assert_eq!(
                    answer(call, &rows, with(&[(Cursor::HALTED, before)]), 3, 34),
                    6
                );
            }
        }
    }
}

/// Slices of Rust that hold nothing point nowhere.
#[test]
fn empty_slices() {
    let rows = [STAY.into()];
    for call in [segment, padding] {
        let mut cursor = start(&[]);
        assert_eq!(call(&rows, &mut cursor, 0, &mut []), Ok(()));
        let refused = call(&rows, &mut cursor, 1, &mut []);
        assert_eq!(refused, Err(Refusal::Short));
        let refused = call(&[], &mut cursor, 0, &mut []);
        assert_eq!(refused, Err(Refusal::NoRows));
        assert_eq!(*cursor.image(), BLANK);
    }
}

#[test]
fn the_refusals_of_the_safe_forms() {
    let rows = [STAY.into()];
    let refusal = |rows: &[u64], place: usize, word| {
        let mut cursor = Cursor::new(with(&[(place, word)]));
        segment(rows, &mut cursor, 1, &mut [0; 16]).expect_err("a short buffer")
    };
    let too_many = vec![STAY.into(); MAX_ROWS + 1];
    assert_eq!(refusal(&[], 0, 0), Refusal::NoRows);
    assert_eq!(refusal(&too_many, 0, 0), Refusal::TooManyRows);
    assert_eq!(refusal(&[1 << 32], 0, 0), Refusal::NoExpansion);
    assert_eq!(refusal(&rows, Cursor::NEXT_FETCH, 1), Refusal::OutsideRows);
    assert_eq!(
        refusal(&rows, Cursor::CYCLES, 1 << 62),
        Refusal::TooManyCycles
    );
    assert_eq!(refusal(&rows, 0, 0), Refusal::Short);
    assert!(Refusal::TooManyRows.to_string().contains("1048576"));
    assert!(Refusal::TooManyRows.to_string().contains("6291456"));
    assert!(Refusal::TooManyCycles.to_string().contains("4294967296"));
}
