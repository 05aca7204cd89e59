//! The fixed set of lists of calls whose answers by the reference are listed.

mod alu;
pub mod bounds;
#[cfg(test)]
mod callclaims;
#[cfg(test)]
mod cycleclaims;
mod jumps;
mod memory;
mod padding;
mod random;
mod rooms;
mod shifts;
pub mod system;
#[cfg(test)]
mod told;

use crate::asm::ld;
use crate::callline::answers;
use crate::calllist::{segment, CallList};
use crate::words::ECALL;
use magnetar_reference::expand::expand_program;

/// The boundaries of words and doublewords, and a number without a pattern.
pub const VALUES: [u64; 8] = [
    0,
    1,
    1 << 31,
    (1 << 32) - 1,
    (1 << 63) - 1,
    1 << 63,
    u64::MAX,
    0x5bd1_e995_9d3a_c74d,
];

pub fn listing() -> String {
    all().iter().map(answers).collect()
}

pub fn all() -> Vec<CallList> {
    let groups = [
        alu::lists(),
        shifts::lists(),
        jumps::lists(),
        memory::lists(),
        system::lists(),
        padding::lists(),
        rooms::lists(),
        bounds::lists(),
        random::lists(),
    ];
    groups.into_iter().flatten().collect()
}

/// A program that loads the values into x1, x2 and so on, does what the words
/// say, and halts: run in one call of as many cycles as it has rows.
pub fn straight(values: &[u64], words: impl IntoIterator<Item = u32>) -> CallList {
    let mut program = loads(values.len());
    program.extend(words);
    program.push(ECALL);
    CallList {
        calls: vec![segment(expand_program(&program).len as u64)],
        program,
        input: values.to_vec(),
    }
}

/// Words that load the first words of the input into x1, x2 and so on.
pub fn loads(count: usize) -> Vec<u32> {
    let numbers = (1..).zip((0..).step_by(8)).take(count);
    numbers
        .map(|(register, address)| ld([register, 0], address))
        .collect()
}

/// Pairs of the registers that hold the values, each register with itself and
/// with this many others.
fn pairs(others: usize) -> impl Iterator<Item = [u32; 2]> {
    // The distances make neighbours and values of other sign meet.
    let distances = [0, 5, 1].into_iter().take(1 + others);
    distances.flat_map(|distance| (0..8).map(move |left| [1 + left, 1 + (left + distance) % 8]))
}

/// A register that holds no value, or x0.
fn destination(number: u32) -> u32 {
    match number % 8 {
        5 => 0,
        _ => 9 + number % 23,
    }
}
