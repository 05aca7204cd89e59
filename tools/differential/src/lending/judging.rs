//! The test whether rows are an expansion.

use super::Lend;
use crate::{Lent, Rom};
use magnetar_cpu::words;

#[derive(Clone)]
pub struct Judging {
    pub rows: Lent<u64>,
}

impl Judging {
    pub fn new(rows: &[u64]) -> Self {
        Judging {
            rows: Lent::rows(rows),
        }
    }
}

impl Lend for Judging {
    fn library(&mut self) -> u64 {
        words::is_expansion(self.rows.words())
    }

    fn model(&mut self) -> u64 {
        let rom = Rom::new(self.rows.words().to_vec());
        u64::from(rom.program.is_some())
    }

    fn compare(&self, wanted: &Self) -> Result<(), String> {
        self.rows.compare(&wanted.rows, "rows")
    }

    fn about(&self) -> String {
        format!("{} rows", self.rows.words().len())
    }
}
