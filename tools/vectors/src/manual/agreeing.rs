//! Single instructions on which the recorder does what the manual says, with the
//! answers of qemu.

mod alu;
mod branches;
#[cfg(test)]
mod claims;
mod memory;
mod shifts;

use super::case::{case, Case, State};
use super::line::agreeing;
use super::qemu;

/// The boundaries of words and doublewords.
const BOUNDARIES: [u64; 9] = [
    0,
    1,
    (1 << 31) - 1,
    1 << 31,
    (1 << 32) - 1,
    1 << 32,
    (1 << 63) - 1,
    1 << 63,
    u64::MAX,
];
/// Numbers of mixed bits. The signs of the two halves differ in two of them.
const MIXED: [u64; 3] = [
    0x5bd1_e995_9d3a_c74d,
    0xa42e_166a_62c5_38b2,
    0xfedc_ba98_8765_4321,
];
/// What a destination holds before: if it were not written, that would show.
const STALE: u64 = 0x5a5a_5a5a_a5a5_a5a5;

/// The opcodes that have no destination.
const STORE: u32 = 0x23;
const BRANCH: u32 = 0x63;

pub fn listing() -> Result<String, String> {
    let cases = cases();
    let states = qemu::run(&cases)?;
    let lines = cases.iter().zip(&states).map(|(case, state)| {
        check(case, state)?;
        Ok(agreeing(case, state))
    });
    lines.collect()
}

/// An instruction changes no register but its destination.
fn check(case: &Case, state: &State) -> Result<(), String> {
    let word = case.words[0];
    let destination = match word & 0x7f {
        STORE | BRANCH => 0,
        _ => (word >> 7 & 0x1f) as usize,
    };
    let mut expected = case.registers();
    expected[destination] = state.registers[destination];
    match expected == state.registers {
        true => Ok(()),
        false => Err(format!("qemu changed another register: {case:x?}")),
    }
}

fn cases() -> Vec<Case> {
    let groups = [
        alu::cases(),
        shifts::cases(),
        memory::cases(),
        branches::cases(),
    ];
    groups.into_iter().flatten().collect()
}

/// The boundaries and the mixed numbers.
fn values() -> impl Iterator<Item = u64> + Clone {
    BOUNDARIES.into_iter().chain(MIXED)
}

/// Every boundary with every boundary, every mixed number with every mixed one.
fn pairs() -> impl Iterator<Item = (u64, u64)> {
    let boundaries = product(&BOUNDARIES, &BOUNDARIES);
    boundaries.chain(product(&MIXED, &MIXED))
}

fn product<'a, T: Copy, U: Copy>(
    left: &'a [T],
    right: &'a [U],
) -> impl Iterator<Item = (T, U)> + 'a {
    left.iter()
        .flat_map(move |&left| right.iter().map(move |&right| (left, right)))
}

/// Three different registers. 31 numbers that follow one another give each of x1
/// to x31 in each role.
fn registers(number: usize) -> [u32; 3] {
    [0, 7, 19].map(|distance| 1 + (number as u32 + distance) % 31)
}
