//! One program, timed in the reference and in the library.

use differential::Expansion;
use magnetar_cpu::{expand, is_expansion};
use magnetar_reference::expand::expand_program;
use std::hint::black_box;
use std::time::{Duration, Instant};

const LATER_TESTS: usize = 8;

/// A program, the buffers for its expansion, and the best times so far.
pub struct Mix {
    pub name: &'static str,
    program: Vec<u32>,
    rows: Vec<u64>,
    starts: Vec<u64>,
    reference: Duration,
    library: Duration,
    first_test: Duration,
    later_test: Duration,
}

impl Mix {
    /// An error if reference and library do not agree on the program. The buffers
    /// are exactly full afterwards, so all of their pages have been touched.
    pub fn new(name: &'static str, program: Vec<u32>) -> Result<Mix, String> {
        let expansion = Expansion::of(&program);
        let mut mix = Mix {
            name,
            rows: vec![0; expansion.rows.len()],
            starts: vec![0; expansion.starts.len()],
            program,
            reference: Duration::MAX,
            library: Duration::MAX,
            first_test: Duration::MAX,
            later_test: Duration::MAX,
        };
        let count = expand(&mix.program, &mut mix.rows, &mut mix.starts);
        let counted = count == Ok(mix.rows.len());
        if !counted || mix.rows != expansion.rows || mix.starts != expansion.starts {
            return Err(format!("{name}: the library's expansion is wrong"));
        }
        if !is_expansion(&mix.rows) {
            return Err(format!("{name}: the library's test is wrong"));
        }
        Ok(mix)
    }

    /// Times each expansion once. The test is repeated, because a call after the
    /// reference's finds the processor cold, and the reference has no such test.
    pub fn round(&mut self) {
        let (time, expanded) = timed(|| expand_program(black_box(&self.program)));
        self.reference = self.reference.min(time);
        drop(expanded);
        let program = black_box(&self.program);
        let (time, _) = timed(|| expand(program, &mut self.rows, &mut self.starts));
        self.library = self.library.min(time);
        let test = || timed(|| is_expansion(black_box(&self.rows))).0;
        self.first_test = self.first_test.min(test());
        for _ in 0..LATER_TESTS {
            self.later_test = self.later_test.min(test());
        }
    }

    pub fn rows(&self) -> usize {
        self.rows.len()
    }

    /// The speed of the reference's expansion and of the library's.
    pub fn words_per_microsecond(&self) -> (f64, f64) {
        let speed = |time: Duration| self.program.len() as f64 / time.as_secs_f64() / 1e6;
        (speed(self.reference), speed(self.library))
    }

    /// The speed of the first test of a round and of those repeated.
    pub fn rows_per_nanosecond(&self) -> (f64, f64) {
        let speed = |time: Duration| self.rows.len() as f64 / time.as_secs_f64() / 1e9;
        (speed(self.first_test), speed(self.later_test))
    }
}

/// The time of some work, with its result, which the caller drops untimed.
pub fn timed<T>(work: impl FnOnce() -> T) -> (Duration, T) {
    let start = Instant::now();
    let result = black_box(work());
    (start.elapsed(), result)
}
