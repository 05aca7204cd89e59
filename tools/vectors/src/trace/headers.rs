//! Inputs at the bounds of what is refused: lengths, counts of cycles, counts of
//! input words, empty programs.

use crate::answer::{little_endian, MAX_TRACE_CYCLES, MOST_BYTES};
use crate::asm::{addi, ld};

/// Short inputs that are not whole words, or are cut off in the header.
const SHORT: [usize; 12] = [0, 1, 2, 3, 4, 5, 7, 8, 9, 10, 11, 12];
const LONG: [usize; 6] = [4092, 4095, 4096, 4097, 4100, 4104];
/// The second is 8 with its bytes in the other order.
const MANY_CYCLES: [u32; 8] = [
    MAX_TRACE_CYCLES + 1,
    0x0800_0000,
    MAX_TRACE_CYCLES + 2,
    2 * MAX_TRACE_CYCLES,
    1 << 16,
    1 << 31,
    (1 << 31) + 8,
    u32::MAX,
];
/// Counts of input words: the doubles of many wrap at 2^32 to 0, 2 or 4.
const COUNTS: [u32; 14] = [
    0,
    1,
    2,
    3,
    4,
    0x0100_0000,
    1 << 30,
    (1 << 30) + 1,
    (1 << 31) - 1,
    1 << 31,
    (1 << 31) + 1,
    (1 << 31) + 2,
    u32::MAX - 1,
    u32::MAX,
];

pub fn inputs() -> Vec<Vec<u8>> {
    let mut inputs: Vec<Vec<u8>> = SHORT.map(|bytes| filled([7, 0], bytes)).into();
    inputs.extend(LONG.map(|bytes| filled([7, 0], bytes)));
    // No program, or one of two words, after as many input words as there can be.
    inputs.extend([511, 510, 512].map(|count| filled([3, count], MOST_BYTES)));
    inputs.extend(MANY_CYCLES.map(|cycles| filled([cycles, 0], 16)));
    inputs.extend(COUNTS.map(|count| counted(&[3, count])));
    inputs.extend(empty());
    inputs
}

/// A header, and additions up to so many bytes, the last of which may be cut.
fn filled(header: [u32; 2], bytes: usize) -> Vec<u8> {
    let mut words = header.to_vec();
    words.resize(2 + bytes / 4, addi([10, 10], 1));
    let mut filled = little_endian(&words);
    filled.truncate(bytes);
    filled
}

/// Six words after a header: three input words, or less and more of a program.
fn counted(header: &[u32; 2]) -> Vec<u8> {
    let rest = [ld([10, 0], 0), ld([11, 0], 8), 7, 0, addi([12, 0], 9), 0x73];
    little_endian(&[&header[..], &rest].concat())
}

/// Nothing after the header or the input words; of these, some have another
/// fault, for which there is the other refusal.
fn empty() -> Vec<Vec<u8>> {
    let inputs: [&[u32]; 8] = [
        &[0, 0],
        &[MAX_TRACE_CYCLES, 0],
        &[MAX_TRACE_CYCLES + 1, 0],
        &[0, 1],
        &[0, 1, 5],
        &[0, 1, 5, 6],
        &[MAX_TRACE_CYCLES + 1, 1, 5, 6],
        &[0, 1 << 31],
    ];
    inputs.map(little_endian).into()
}
