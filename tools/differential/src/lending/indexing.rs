//! The last-writer index of a log, and a segment added to one.

use super::Lend;
use crate::index::{latest, refusal};
use crate::{Lent, Rng};
use magnetar_cpu::words;

#[derive(Clone)]
pub struct Indexing {
    /// How many records came before the segment that is added; none where an
    /// index is built.
    pub earlier: Option<u64>,
    pub log: Lent<u64>,
    pub index: Lent<u64>,
}

impl Indexing {
    pub fn new(earlier: Option<u64>, log: &[u64], index: &[u64], rng: &mut Rng) -> Self {
        Indexing {
            earlier,
            log: Lent::new(log, |_| rng.doubleword()),
            index: Lent::new(index, |_| rng.doubleword()),
        }
    }

    /// What the call leaves in every place, given the position in the log of the
    /// record that wrote it.
    pub fn enter(&mut self, position: impl Fn(&[u64], usize) -> Option<usize>) {
        for (at, place) in self.index.words_mut()[..320].iter_mut().enumerate() {
            match (position(self.log.words(), at), self.earlier) {
                (Some(record), earlier) => *place = earlier.unwrap_or(0) + record as u64,
                (None, None) => *place = u64::MAX,
                (None, Some(_)) => (),
            }
        }
    }
}

impl Lend for Indexing {
    fn library(&mut self) -> u64 {
        let (log, index) = (self.log.words(), self.index.words_mut());
        match self.earlier {
            None => words::index_build(log, index),
            Some(earlier) => words::index_add(log, earlier, index),
        }
    }

    fn model(&mut self) -> u64 {
        let places = self.index.words().len();
        let answer = refusal(self.log.words(), self.earlier.unwrap_or(0), places);
        if answer == 0 {
            self.enter(latest);
        }
        answer
    }

    fn compare(&self, wanted: &Self) -> Result<(), String> {
        self.log.compare(&wanted.log, "log")?;
        self.index.compare(&wanted.index, "index")
    }

    fn about(&self) -> String {
        let (log, places) = (self.log.words().len(), self.index.words().len());
        let earlier = self.earlier.unwrap_or(0);
        format!("log of {log} words, {earlier} records before, {places} places")
    }
}
