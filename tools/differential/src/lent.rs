//! Words that are lent to a call, with guard words around them.

use crate::Rng;
use std::fmt::LowerHex;

pub const GUARDS: usize = 8;

/// Words with guard words on both sides.
#[derive(Clone)]
pub struct Lent<T> {
    pub all: Vec<T>,
}

impl<T: Copy + PartialEq + LowerHex> Lent<T> {
    /// `guard` is given the distance from the words, negative before them.
    pub fn new(words: &[T], mut guard: impl FnMut(i64) -> T) -> Self {
        let mut all: Vec<T> = (1..=GUARDS as i64).rev().map(|at| guard(-at)).collect();
        all.extend(words);
        all.extend((1..=GUARDS as i64).map(guard));
        Lent { all }
    }

    pub fn words(&self) -> &[T] {
        &self.all[GUARDS..self.all.len() - GUARDS]
    }

    pub fn words_mut(&mut self) -> &mut [T] {
        let end = self.all.len() - GUARDS;
        &mut self.all[GUARDS..end]
    }

    /// An error where a word, or a guard, is not the wanted one.
    pub fn compare(&self, wanted: &Self, name: &str) -> Result<(), String> {
        assert_eq!(self.all.len(), wanted.all.len());
        let mut pairs = self.all.iter().zip(&wanted.all);
        match pairs.position(|(found, wanted)| found != wanted) {
            None => Ok(()),
            Some(at) => Err(format!(
                "{name}, place {} of {}: found {:#x}, wanted {:#x}",
                at as i64 - GUARDS as i64,
                self.words().len(),
                self.all[at],
                wanted.all[at]
            )),
        }
    }
}

impl Lent<u64> {
    /// A buffer of random words.
    pub fn buffer(length: usize, rng: &mut Rng) -> Self {
        let words: Vec<u64> = (0..length).map(|_| rng.doubleword()).collect();
        Lent::new(&words, |_| rng.doubleword())
    }

    /// The guards go on with the stages of the first and last row, so that a
    /// read outside the rows would find what it hopes for.
    pub fn rows(rows: &[u64]) -> Self {
        let ends = (rows.first().unwrap_or(&0), rows.last().unwrap_or(&0));
        Lent::new(rows, |at| {
            let end = if at < 0 { ends.0 } else { ends.1 };
            end.wrapping_add((at << 32) as u64)
        })
    }
}
