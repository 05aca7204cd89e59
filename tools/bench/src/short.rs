//! Calls that run few cycles or none, timed in the reference and in the library.

use crate::machine::{Machine, Side, ALU};
use crate::mix::timed;
use differential::ADDI;
use std::time::Duration;

const LENGTHS: [usize; 3] = [0, 1, 64];
/// The rows of a small and of a large ROM, and how many of the library's calls are
/// timed together: one on few rows is too short for the clock.
const ROMS: [(usize, u32); 2] = [(ALU.program.len(), 1000), (1_000_000, 4)];
/// How many of the reference's calls are timed together.
const REFERENCE_CALLS: u32 = 1000;

/// A ROM, a length, and the best times of a call so far.
pub struct Short {
    machine: Machine,
    library_calls: u32,
    reference: Duration,
    library: Duration,
}

impl Short {
    /// Every length on each ROM.
    pub fn all() -> Result<Vec<Short>, String> {
        let of_rom = |rom| LENGTHS.map(move |cycles| Short::new(rom, cycles));
        ROMS.into_iter().flat_map(of_rom).collect()
    }

    /// The ROM begins with a loop, which runs, and is filled with rows that do not.
    fn new((rows, library_calls): (usize, u32), cycles: usize) -> Result<Short, String> {
        let mut program = ALU.program.to_vec();
        program.resize(rows, ADDI);
        Ok(Short {
            machine: Machine::of_program(&ALU, &program, cycles)?,
            library_calls,
            reference: Duration::MAX,
            library: Duration::MAX,
        })
    }

    pub fn round(&mut self) {
        let reference = self.time(Side::Reference, REFERENCE_CALLS);
        self.reference = self.reference.min(reference);
        let library = self.time(Side::Library, self.library_calls);
        self.library = self.library.min(library);
    }

    /// The time of a call, if so many are made. What it gives is dropped in time.
    fn time(&mut self, side: Side, calls: u32) -> Duration {
        let (time, ()) = timed(|| (0..calls).for_each(|_| self.machine.run(side)));
        time / calls
    }

    pub fn rows(&self) -> usize {
        self.machine.rows()
    }

    pub fn cycles(&self) -> usize {
        self.machine.cycles
    }

    /// The time of a call of the reference and of the library, in nanoseconds.
    pub fn nanoseconds(&self) -> (u128, u128) {
        (self.reference.as_nanos(), self.library.as_nanos())
    }
}

/// What a call takes longer for each row of its ROM, in nanoseconds: the large
/// against the small ROM, with the same length.
pub fn nanoseconds_per_row(shorts: &[Short]) -> f64 {
    let (small, large) = (&shorts[0], &shorts[LENGTHS.len()]);
    let longer = large.library.saturating_sub(small.library);
    longer.as_nanos() as f64 / (large.rows() - small.rows()) as f64
}

#[cfg(test)]
mod tests {
    use super::*;

    fn short(rows: usize, cycles: usize, nanoseconds: u64) -> Short {
        let mut short = Short::new((rows, 1), cycles).expect("answers that agree");
        short.library = Duration::from_nanos(nanoseconds);
        short
    }

    #[test]
    fn a_rom_has_the_rows_that_are_named() {
        for rows in [ALU.program.len(), 1000] {
            let mut short = short(rows, 64, 0);
            assert_eq!((short.rows(), short.cycles()), (rows, 64));
            short.round();
            assert!(short.reference < Duration::MAX);
        }
    }

    #[test]
    fn a_row_costs_the_difference_of_two_roms() {
        let times = [(8, 0, 200), (8, 1, 0), (8, 64, 0), (1008, 0, 950)];
        let shorts = times.map(|(rows, cycles, time)| short(rows, cycles, time));
        assert_eq!(nanoseconds_per_row(&shorts), 0.75);
    }
}
