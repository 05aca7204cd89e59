//! Segment and padding calls where a line of the table of refusals begins.

use differential::{check, Executing, Lend, Running, Starting};
use differential::{program, register_shift, stage_word, Call, Rng, Rom, ADDI, ECALL, SLL};
use magnetar_cpu::{Cursor, Image, MAX_PROGRAM_WORDS, MAX_ROWS, RECORD_WORDS};

const CALLS: [Call; 2] = [Call::Segment, Call::Padding];
const BLANK: Image = [0; Cursor::WORDS];

/// The answer, everything compared.
fn answer(call: Call, rom: &Rom, image: &Image, length: u64, room: usize) -> u64 {
    let running = Running::new(call, rom, image, length, room, &mut Rng::new(7));
    match check(running, Running::library) {
        Ok((answer, _)) => answer,
        Err(error) => panic!("{call:?} of {length}, {room} words: {error}"),
    }
}

/// A blank cursor but for some of its words.
fn with(words: &[(usize, u64)]) -> Image {
    let mut image = BLANK;
    words.iter().for_each(|&(place, word)| image[place] = word);
    image
}

#[test]
fn fresh_cursors() {
    for length in [0, 1, 2, 255, 256, 257, 1000] {
        let input: Vec<u64> = (1..=length).map(|word| u64::MAX / word).collect();
        let starting = Starting::new(&input, &mut Rng::new(8));
        let checked = check(starting, Starting::library);
        assert_eq!(checked.err(), None, "input of {length}");
    }
}

fn check_last_row(rom: &Rom) {
    let rows = rom.rows.len() as u64;
    for call in CALLS {
        let at = |micro_pc, next_fetch| {
            let image = with(&[
                (Cursor::MICRO_PC, micro_pc),
                (Cursor::NEXT_FETCH, next_fetch),
            ]);
            answer(call, rom, &image, 2, 34)
        };
        assert_eq!(at(rows - 1, 0), 0);
        assert_eq!(at(0, rows - 1), 0);
        for outside in [rows, u64::MAX] {
            assert_eq!((at(outside, 0), at(0, outside)), (4, 4));
            assert_eq!(at(outside, outside), 4);
        }
    }
}

#[test]
fn the_last_row_of_few() {
    check_last_row(&Rom::of(&[ADDI]));
    check_last_row(&Rom::of(&[ADDI, SLL]));
    check_last_row(&Rom::of(&[SLL, ECALL]));
}

/// One test, because each of these ROMs takes half a gigabyte.
#[test]
fn the_most_rows_and_one_more() {
    let longest = program(MAX_PROGRAM_WORDS, &mut Rng::new(9), register_shift);
    let mut rows = check_longest(Rom::of(&longest));
    rows.push(ADDI.into());
    check_too_many(&Rom::new(rows));
    check_too_many(&Rom::new(vec![stage_word(SLL, 1); MAX_ROWS + 1]));
}

fn check_longest(rom: Rom) -> Vec<u64> {
    assert_eq!(rom.rows.len(), 6_291_456);
    check_last_row(&rom);
    assert_eq!(execution(&rom, 2, 34), 0);
    rom.rows
}

/// The answer of an execution, everything compared.
fn execution(rom: &Rom, max_cycles: u64, room: usize) -> u64 {
    let executing = Executing::new(rom, &[], max_cycles, room, &mut Rng::new(7));
    match check(executing, Executing::library) {
        Ok((answer, _)) => answer,
        Err(error) => panic!("{max_cycles} cycles, {room} words: {error}"),
    }
}

/// Refused as too many whatever else is wrong.
fn check_too_many(rom: &Rom) {
    let outside = with(&[(Cursor::MICRO_PC, u64::MAX), (Cursor::CYCLES, u64::MAX)]);
    for call in CALLS {
        assert_eq!(answer(call, rom, &BLANK, 1, 17), 2);
        assert_eq!(answer(call, rom, &outside, u64::MAX, 0), 2);
    }
    assert_eq!(execution(rom, 1, 17), 2);
    assert_eq!(execution(rom, u64::MAX, 0), 2);
}

#[test]
fn no_rows() {
    let rom = Rom::new(Vec::new());
    let outside = with(&[(Cursor::MICRO_PC, 1), (Cursor::CYCLES, u64::MAX)]);
    for call in CALLS {
        assert_eq!(answer(call, &rom, &BLANK, 0, 0), 1);
        assert_eq!(answer(call, &rom, &outside, u64::MAX, 0), 1);
    }
}

/// Each word of a shift and of what stands around it.
#[test]
fn rows_damaged_in_one_word() {
    let rows = Rom::of(&[ADDI, SLL, ADDI]).rows;
    for place in 0..rows.len() {
        let mut rows = rows.clone();
        rows[place] ^= 1 << 40;
        let rom = Rom::new(rows);
        for call in CALLS {
            assert_eq!(answer(call, &rom, &BLANK, 2, 34), 3, "row {place}");
        }
    }
}

/// Every set of things that are wrong: the lowest number is the answer.
#[test]
fn the_lowest_number_first() {
    let good = [ADDI, SLL].map(u64::from);
    let roms = [
        (0, Rom::of(&[ADDI, SLL])),
        (1, Rom::new(Vec::new())),
        (3, Rom::new(good.to_vec())),
    ];
    for set in 0..roms.len() << 3 {
        let (number, rom) = &roms[set >> 3];
        let wrong = |bit: u32| set >> bit & 1 == 1;
        let image = with(&[
            (Cursor::NEXT_FETCH, if wrong(0) { 7 } else { 6 }),
            (Cursor::CYCLES, (1 << 62) - if wrong(1) { 2 } else { 3 }),
        ]);
        let room = if wrong(2) { 50 } else { 51 };
        for call in CALLS {
            let later = [
                (4, wrong(0)),
                (5, wrong(1) && call == Call::Segment),
                (6, wrong(2)),
            ];
            let lowest = later.iter().find(|(_, met)| *met).map_or(0, |(n, _)| *n);
            let wanted = if *number > 0 { *number } else { lowest };
            assert_eq!(answer(call, rom, &image, 3, room), wanted, "set {set}");
        }
    }
}

#[test]
fn the_sum_of_cycles() {
    const MOST: u64 = 1 << 62;
    let rom = Rom::of(&[ADDI]);
    // Cycles, length, and the answers of segment and padding call.
    let table = [
        (MOST, 0, 0, 0),
        (MOST + 1, 0, 5, 0),
        (MOST - 3, 3, 0, 0),
        (MOST - 3, 4, 5, 0),
        (0, MOST, 6, 6),
        (0, MOST + 1, 5, 6),
        (1, MOST, 5, 6),
        (u64::MAX, 0, 5, 0),
        (u64::MAX, 1, 5, 0),
        (u64::MAX - 3, 4, 5, 0),
        (4, u64::MAX - 3, 5, 6),
        (u64::MAX, u64::MAX, 5, 6),
        (MOST, 3 * MOST, 5, 6),
    ];
    for (cycles, length, of_segment, of_padding) in table {
        for halted in [0, 1, 2, u64::MAX] {
            let image = with(&[(Cursor::CYCLES, cycles), (Cursor::HALTED, halted)]);
            let answer = |call| answer(call, &rom, &image, length, 4 * RECORD_WORDS);
            assert_eq!(answer(Call::Segment), of_segment, "{cycles} + {length}");
            assert_eq!(answer(Call::Padding), of_padding, "{cycles} + {length}");
        }
    }
}

#[test]
fn the_words_of_a_record_buffer() {
    let rom = Rom::of(&[ADDI, SLL]);
    for call in CALLS {
        for room in [0, 1, 17] {
            assert_eq!(answer(call, &rom, &BLANK, 0, room), 0);
        }
        for length in [1, 2, 100, 65_536] {
            let full = 17 * length;
            let answer = |room| answer(call, &rom, &BLANK, length as u64, room);
            assert_eq!((answer(full), answer(full + 1)), (0, 0));
            assert_eq!((answer(full - 1), answer(0)), (6, 6));
        }
        // 17 times as much wraps to 16 and 33.
        for length in [u64::MAX / 17 + 1, u64::MAX / 17 + 2] {
            assert_eq!(answer(call, &rom, &BLANK, length, 34), 6);
        }
    }
}

/// A refused call leaves the halted word, any other writes it as 0 or 1.
#[test]
fn the_halted_word() {
    let rom = Rom::of(&[ADDI]);
    for (before, after) in [(0, 0), (1, 1), (2, 1), (u64::MAX, 1)] {
        let image = with(&[(Cursor::HALTED, before)]);
        for (length, room, wanted) in [(0, 0, after), (2, 34, after), (2, 33, before)] {
            for call in CALLS {
                let running = Running::new(call, &rom, &image, length, room, &mut Rng::new(10));
                let left = check(running, Running::library).map(|(_, left)| left.image());
                assert_eq!(left.map(|left| left[Cursor::HALTED]), Ok(wanted));
            }
        }
    }
}
