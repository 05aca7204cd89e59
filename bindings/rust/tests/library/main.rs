//! The library at the edges of its limits and buffers. What must be there is
//! from the specification: no other recorder is asked.

#![forbid(unsafe_code)]

mod dispatching;
mod executing;
mod expanding;
mod guarded;
mod indexing;
mod names;
mod reporting;
mod running;
mod same;
mod stopping;
mod texts;

use magnetar_cpu::{cursor_words, Cursor, Image};

/// addi x10, x0, 5.
const ADDI: u32 = 0x0050_0513;
/// sll x3, x1, x2: six rows.
const SLL: u32 = 0x0020_91b3;
const ECALL: u32 = 0x0000_0073;
/// A jump to itself.
const STAY: u32 = 0x0000_006f;

/// The records that the specification prints for `ADDI` and `ECALL`.
const PRINTED: [[u64; 17]; 2] = [
    [0, 0, 0, 5, 0, 10, 0, 0, 0, 0, 0, 1, 0, 5, 5, 0, 327_680],
    [1, 5, 0, 5, 0, 32, 0, 0, 0, 0, 0, 1, 5, 0, 5, 0, 134_217_728],
];

const BLANK: Image = [0; Cursor::WORDS];

/// A blank cursor but for some of its words.
fn with(words: &[(usize, u64)]) -> Image {
    let mut image = BLANK;
    words.iter().for_each(|&(place, word)| image[place] = word);
    image
}

/// The row words of `SLL`.
fn shift_rows() -> Vec<u64> {
    (0..6).map(|stage| u64::from(SLL) + (stage << 32)).collect()
}

/// The crate and the library must mean the same cursor.
#[test]
fn the_words_of_a_cursor() {
    assert_eq!(cursor_words(), Cursor::WORDS);
    assert_eq!(Cursor::WORDS, 325);
    assert_eq!(Cursor::REGS.len() + Cursor::RAM.len() + 5, Cursor::WORDS);
}
