//! Rows that own their memory.

#![forbid(unsafe_code)]

use crate::{expand, Refusal, MAX_PROGRAM_WORDS, ROWS_PER_WORD};
use alloc::vec;
use alloc::vec::Vec;

/// The rows of a program, as [`expand`] makes them, in memory of its own.
#[derive(Clone, Debug, PartialEq, Eq)]
pub struct Expansion {
    /// The row words.
    pub rows: Vec<u64>,
    /// For each word of the program the row at which it begins.
    pub starts: Vec<u64>,
}

impl Expansion {
    /// Expands `program`.
    ///
    /// # Errors
    ///
    /// - [`Refusal::NoRows`], 1: the program is empty.
    /// - [`Refusal::TooManyRows`], 2: it has over [`MAX_PROGRAM_WORDS`] words.
    ///
    /// # Panics
    ///
    /// If the library's answer is none of its numbers.
    pub fn new(program: &[u32]) -> Result<Self, Refusal> {
        // For a program that is too long nothing is allocated: 2 comes before 6.
        let is_too_long = program.len() > MAX_PROGRAM_WORDS;
        let places = if is_too_long { 0 } else { program.len() };
        let mut rows = vec![0; ROWS_PER_WORD * places];
        let mut starts = vec![0; places];
        let count = expand(program, &mut rows, &mut starts)?;
        rows.truncate(count);
        rows.shrink_to_fit();
        Ok(Expansion { rows, starts })
    }
}
