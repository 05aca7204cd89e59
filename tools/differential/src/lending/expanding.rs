//! An expansion.

use super::Lend;
use crate::{Expansion, Lent, Rng};
use magnetar_cpu::words;

#[derive(Clone)]
pub struct Expanding<'a> {
    /// What the reference makes of the program.
    pub expansion: &'a Expansion,
    pub program: Lent<u32>,
    pub rows: Lent<u64>,
    pub starts: Lent<u64>,
    pub count: Lent<u64>,
}

impl<'a> Expanding<'a> {
    /// Buffers of these lengths, filled with random words.
    pub fn new(
        program: &[u32],
        expansion: &'a Expansion,
        rows: usize,
        starts: usize,
        rng: &mut Rng,
    ) -> Self {
        Expanding {
            expansion,
            program: Lent::new(program, |_| rng.word()),
            rows: Lent::buffer(rows, rng),
            starts: Lent::buffer(starts, rng),
            count: Lent::buffer(1, rng),
        }
    }

    /// The table of refusals, lowest number first; 0 is accepted.
    fn refusal(&self) -> u64 {
        let short = |lent: &Lent<u64>, words: &[u64]| lent.words().len() < words.len();
        match self.program.words().len() {
            0 => 1,
            1_048_577.. => 2,
            _ if short(&self.rows, &self.expansion.rows) => 6,
            _ if short(&self.starts, &self.expansion.starts) => 6,
            _ => 0,
        }
    }
}

impl Lend for Expanding<'_> {
    fn library(&mut self) -> u64 {
        words::expand(
            self.program.words(),
            self.rows.words_mut(),
            self.starts.words_mut(),
            &mut self.count.words_mut()[0],
        )
    }

    fn model(&mut self) -> u64 {
        let answer = self.refusal();
        if answer == 0 {
            let Expansion { rows, starts } = self.expansion;
            self.rows.words_mut()[..rows.len()].copy_from_slice(rows);
            self.starts.words_mut()[..starts.len()].copy_from_slice(starts);
            self.count.words_mut()[0] = rows.len() as u64;
        }
        answer
    }

    fn compare(&self, wanted: &Self) -> Result<(), String> {
        self.program.compare(&wanted.program, "program")?;
        self.rows.compare(&wanted.rows, "rows")?;
        self.starts.compare(&wanted.starts, "starts")?;
        self.count.compare(&wanted.count, "count")
    }

    fn about(&self) -> String {
        let words = self.program.words().len();
        let (rows, starts) = (self.rows.words().len(), self.starts.words().len());
        format!("{words} words, room for {rows} rows and {starts} starts")
    }
}
