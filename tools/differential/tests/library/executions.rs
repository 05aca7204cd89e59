//! Executions where a line of the table of refusals begins.

use differential::{check, Executing, Lend, Rng, Rom, ADDI, ECALL, SLL};
use magnetar_cpu::RECORD_WORDS;

const MOST: u64 = 1 << 32;
/// A jump to itself.
const STAY: u32 = 0x0000_006f;

/// The answer, everything compared.
fn answer(rom: &Rom, max_cycles: u64, room: usize) -> u64 {
    let executing = Executing::new(rom, &[1, 2, 3], max_cycles, room, &mut Rng::new(7));
    match check(executing, Executing::library) {
        Ok((answer, _)) => answer,
        Err(error) => panic!("{max_cycles} cycles, {room} words: {error}"),
    }
}

/// Exactly full for the next power of two, and one word short, on machines that
/// halt at once, halt late or never.
#[test]
fn the_words_of_a_record_buffer() {
    let roms = [&[ECALL][..], &[ADDI, SLL, ECALL], &[STAY]].map(Rom::of);
    for rom in roms {
        for max_cycles in (0..=70).chain([127, 128, 129, 1000, 4096, 65_536]) {
            let full = 17 * (max_cycles as usize).next_power_of_two();
            let answer = |room| answer(&rom, max_cycles, room);
            assert_eq!((answer(full), answer(full + 1)), (0, 0));
            assert_eq!((answer(full - 1), answer(0)), (6, 6));
            // Enough for every cycle, but not for the power of two.
            let unrounded = 17 * max_cycles as usize;
            assert_eq!(answer(unrounded), if unrounded < full { 6 } else { 0 });
        }
    }
}

#[test]
fn the_most_cycles() {
    let rom = Rom::of(&[ECALL]);
    for room in [0, 16, 17, 17 * 1024] {
        for max_cycles in [MOST - 1, MOST] {
            assert_eq!(answer(&rom, max_cycles, room), 6);
        }
        for max_cycles in [MOST + 1, 2 * MOST, 1 << 62, (1 << 63) + 1, u64::MAX] {
            assert_eq!(answer(&rom, max_cycles, room), 5);
        }
    }
    // The words of so many records wrap to few.
    for max_cycles in [1 << 60, u64::MAX / 17 + 1] {
        assert_eq!(answer(&rom, max_cycles, RECORD_WORDS), 5);
    }
}

/// Every set of things that are wrong: the lowest number is the answer.
#[test]
fn the_lowest_number_first() {
    let unfinished = [ADDI, SLL].map(u64::from);
    let roms = [
        (0, Rom::of(&[ADDI, SLL])),
        (1, Rom::new(Vec::new())),
        (3, Rom::new(unfinished.to_vec())),
    ];
    // The limit, and how many words are missing.
    let table = [
        (2, 0, 0),
        (2, 1, 6),
        (MOST, 1, 6),
        (MOST + 1, 1, 5),
        (u64::MAX, 34, 5),
    ];
    for (number, rom) in &roms {
        for (max_cycles, missing, later) in table {
            let wanted = if *number > 0 { *number } else { later };
            assert_eq!(answer(rom, max_cycles, 34 - missing), wanted);
        }
    }
}

/// Each word of a shift and of what stands around it.
#[test]
fn rows_damaged_in_one_word() {
    let rows = Rom::of(&[ADDI, SLL, ADDI]).rows;
    for place in 0..rows.len() {
        let mut rows = rows.clone();
        rows[place] ^= 1 << 40;
        assert_eq!(answer(&Rom::new(rows), 2, 34), 3, "row {place}");
    }
}

/// Words of input past those of RAM are ignored.
#[test]
fn inputs_of_every_length() {
    let rom = Rom::of(&[ADDI, ECALL]);
    for length in [0, 1, 2, 255, 256, 257, 1000] {
        let input: Vec<u64> = (1..=length).collect();
        let executing = Executing::new(&rom, &input, 4, 68, &mut Rng::new(8));
        let answer = check(executing, Executing::library).map(|(answer, _)| answer);
        assert_eq!(answer, Ok(0), "{length} words");
    }
}
