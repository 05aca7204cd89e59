//! A report of runs.

use super::Lend;
use crate::figures::{figures, line, refusal};
use crate::{Lent, Rng};
use magnetar_cpu::words;

#[derive(Clone)]
pub struct Reporting {
    pub live: Lent<u64>,
    pub records: Lent<u64>,
    pub line: Lent<u8>,
    pub length: Lent<u64>,
}

impl Reporting {
    /// With a line buffer of so many random bytes.
    pub fn new(live: &[u64], records: &[u64], bytes: usize, rng: &mut Rng) -> Self {
        let line: Vec<u8> = (0..bytes).map(|_| rng.word() as u8).collect();
        Reporting {
            live: Lent::new(live, |_| rng.doubleword()),
            records: Lent::new(records, |_| rng.doubleword()),
            line: Lent::new(&line, |_| rng.word() as u8),
            length: Lent::buffer(1, rng),
        }
    }

    pub fn figures(&self) -> [u128; 4] {
        figures(self.live.words(), self.records.words())
    }

    /// What an accepted call leaves, given its line.
    pub fn print(&mut self, line: &str) {
        self.line.words_mut()[..line.len()].copy_from_slice(line.as_bytes());
        self.length.words_mut()[0] = line.len() as u64;
    }
}

impl Lend for Reporting {
    fn library(&mut self) -> u64 {
        words::report(
            self.live.words(),
            self.records.words(),
            self.line.words_mut(),
            &mut self.length.words_mut()[0],
        )
    }

    fn model(&mut self) -> u64 {
        let bytes = self.line.words().len();
        let answer = refusal(self.live.words(), self.records.words(), bytes);
        if answer == 0 {
            self.print(&line(self.figures()));
        }
        answer
    }

    fn compare(&self, wanted: &Self) -> Result<(), String> {
        self.live.compare(&wanted.live, "live")?;
        self.records.compare(&wanted.records, "records")?;
        self.line.compare(&wanted.line, "line")?;
        self.length.compare(&wanted.length, "length")
    }

    fn about(&self) -> String {
        let (live, records) = (self.live.words().len(), self.records.words().len());
        let bytes = self.line.words().len();
        format!("{live} live counts, {records} record counts, room for {bytes} bytes")
    }
}
