//! Random ROMs, cursors, lengths and rooms, mostly near where an answer changes.

use crate::damage::damage;
use crate::machine::{image_of, MAX_EXECUTE_CYCLES, MAX_TOTAL_CYCLES};
use crate::programs::{any_word, known_word, live_word, program};
use crate::{Rng, Rom};
use magnetar_cpu::{Cursor, Image, RECORD_WORDS};
use magnetar_reference::interp::StreamCursor;

const MOST_WORDS: usize = 30;
/// The most cycles of a call that a buffer may have room for.
const LONGEST: usize = 100;

pub fn rom(rng: &mut Rng) -> Rom {
    let words = [any_word, known_word, live_word, live_word][rng.below(4)];
    let length = 1 + rng.below(MOST_WORDS);
    Rom::of(&program(length, rng, words))
}

/// The rows damaged, or none at all.
pub fn damaged(rows: &[u64], rng: &mut Rng) -> Vec<u64> {
    let mut rows = rows.to_vec();
    match rng.below(8) {
        0 => rows.clear(),
        _ => damage(&mut rows, rng),
    }
    rows
}

/// The length of a buffer. Enough more often than not, so that both buffers
/// often are.
pub fn length_around(exact: usize, rng: &mut Rng) -> usize {
    match rng.below(8) {
        0 => exact.saturating_sub(1),
        1 => 0,
        2 | 3 => exact + 1,
        4 => exact + rng.below(200),
        _ => exact,
    }
}

/// Input words, now and then more than RAM has.
pub fn input(rng: &mut Rng) -> Vec<u64> {
    let length = match rng.below(6) {
        0 => 0,
        1 => 254 + rng.below(5),
        _ => rng.below(300),
    };
    (0..length).map(|_| word(rng)).collect()
}

/// A random word, or one that comparisons and addresses are likely to turn on.
pub fn word(rng: &mut Rng) -> u64 {
    match rng.below(6) {
        0 => 0,
        1 => rng.below(9) as u64,
        2 => u64::MAX - rng.below(3) as u64,
        3 => 1 << rng.below(64),
        _ => rng.doubleword(),
    }
}

/// Of a fresh cursor or of a random one.
pub fn image(rows: usize, rng: &mut Rng) -> Image {
    match rng.below(2) {
        0 => image_of(&StreamCursor::start(&input(rng))),
        _ => any_image(rows, rng),
    }
}

fn any_image(rows: usize, rng: &mut Rng) -> Image {
    let mut image = std::array::from_fn(|_| word(rng));
    image[Cursor::MICRO_PC] = row(rows, rng);
    image[Cursor::NEXT_FETCH] = row(rows, rng);
    image[Cursor::CYCLES] = cycles(rng);
    image[Cursor::HALTED] = [0, 0, halted_word(rng)][rng.below(3)];
    image
}

fn halted_word(rng: &mut Rng) -> u64 {
    [0, 1, 2, 1 << 32, u64::MAX][rng.below(5)]
}

fn row(rows: usize, rng: &mut Rng) -> u64 {
    match rng.below(24) {
        0 => rows as u64,
        1 => u64::MAX,
        2..5 => rows as u64 - 1,
        _ => rng.below(rows) as u64,
    }
}

fn cycles(rng: &mut Rng) -> u64 {
    match rng.below(8) {
        0 => MAX_TOTAL_CYCLES + rng.below(2) as u64,
        1 => u64::MAX - rng.below(4) as u64,
        2..4 => MAX_TOTAL_CYCLES - rng.below(2 * LONGEST) as u64,
        _ => rng.below(1000) as u64,
    }
}

/// The length of a call, mostly one that a buffer can have room for.
pub fn length(image: &Image, rng: &mut Rng) -> u64 {
    let left = MAX_TOTAL_CYCLES.wrapping_sub(image[Cursor::CYCLES]);
    let few = rng.below(4) as u64;
    match rng.below(24) {
        0 => left,
        1 => left.wrapping_add(1),
        2 => MAX_TOTAL_CYCLES - 2 + few,
        3 => u64::MAX - few,
        // 17 times as much is a little over 2^64.
        4 => u64::MAX / 17 + 1 + few,
        5..10 => few,
        _ => rng.below(LONGEST) as u64,
    }
}

/// The words of a record buffer, mostly exactly enough.
pub fn room(records: u64, rng: &mut Rng) -> usize {
    let full = match records <= 2 * LONGEST as u64 {
        true => RECORD_WORDS * records as usize,
        false => rng.below(100),
    };
    match rng.below(10) {
        0 => full.saturating_sub(1),
        1 => 0,
        2 => full + 1 + rng.below(40),
        _ => full,
    }
}

/// The limit of an execution, mostly one that a buffer can have room for.
pub fn max_cycles(rng: &mut Rng) -> u64 {
    let few = rng.below(4) as u64;
    match rng.below(16) {
        0 => MAX_EXECUTE_CYCLES - 1 + few,
        1 => MAX_EXECUTE_CYCLES,
        2 => u64::MAX - few,
        3 => 1 << rng.below(64),
        4 => few,
        // Around a power of two.
        5..10 => (1 << rng.below(7)) + few.saturating_sub(2),
        _ => rng.below(LONGEST) as u64,
    }
}

/// The words of a record buffer for an execution: enough, or for some number of
/// records that is less.
pub fn execute_room(max_cycles: u64, rng: &mut Rng) -> usize {
    let due = max_cycles.checked_next_power_of_two().unwrap_or(u64::MAX);
    match rng.below(5) {
        0 => room(max_cycles, rng),
        1 => room(rng.below(LONGEST) as u64, rng),
        _ => room(due, rng),
    }
}

/// The same image, or one that differs in a word or two.
pub fn other_image(image: &Image, rng: &mut Rng) -> Image {
    let mut other = *image;
    for _ in 0..[0, 1, 1, 1, 2][rng.below(5)] {
        let place = place(rng);
        other[place] = match place {
            Cursor::HALTED => halted_word(rng),
            _ => other[place] ^ 1 << rng.below(64),
        };
    }
    other
}

/// A place in an image. Each of the numbers after RAM comes as often as all of
/// RAM, and so do the ends of registers and RAM.
fn place(rng: &mut Rng) -> usize {
    match rng.below(12) {
        0 | 1 => Cursor::REGS.start,
        2 => Cursor::REGS.start + rng.below(64),
        3 => [1, 31, 32, 63][rng.below(4)],
        4 => Cursor::RAM.start + rng.below(256),
        5 => [Cursor::RAM.start, Cursor::RAM.end - 1][rng.below(2)],
        6 | 7 => Cursor::HALTED,
        8 => Cursor::MICRO_PC,
        9 => Cursor::CYCLES,
        10 => Cursor::OUTPUT,
        _ => Cursor::NEXT_FETCH,
    }
}
