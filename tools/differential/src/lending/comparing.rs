//! The comparison of two cursors.

use super::Lend;
use crate::machine::is_same;
use crate::{Lent, Rng};
use magnetar_cpu::{words, Image};

#[derive(Clone)]
pub struct Comparing {
    pub a: Lent<u64>,
    pub b: Lent<u64>,
}

impl Comparing {
    pub fn new(a: &Image, b: &Image, rng: &mut Rng) -> Self {
        Comparing {
            a: Lent::new(a, |_| rng.doubleword()),
            b: Lent::new(b, |_| rng.doubleword()),
        }
    }

    pub fn images(&self) -> [&Image; 2] {
        [&self.a, &self.b].map(|lent| lent.words().try_into().expect("a cursor's words"))
    }
}

impl Lend for Comparing {
    fn library(&mut self) -> u64 {
        let [a, b] = self.images();
        words::same(a, b)
    }

    fn model(&mut self) -> u64 {
        let [a, b] = self.images();
        u64::from(is_same(a, b))
    }

    fn compare(&self, wanted: &Self) -> Result<(), String> {
        self.a.compare(&wanted.a, "first cursor")?;
        self.b.compare(&wanted.b, "second cursor")
    }

    fn about(&self) -> String {
        let [a, b] = self.images();
        let differ = a.iter().zip(b).filter(|(a, b)| a != b).count();
        format!("differing words: {differ}")
    }
}
