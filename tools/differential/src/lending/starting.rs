//! The making of a fresh cursor.

use super::{image_mut, Lend};
use crate::machine::image_of;
use crate::{Lent, Rng};
use magnetar_cpu::{words, Cursor, Image};
use magnetar_reference::interp::StreamCursor;

#[derive(Clone)]
pub struct Starting {
    pub input: Lent<u64>,
    pub cursor: Lent<u64>,
}

impl Starting {
    /// The image to be written to is random.
    pub fn new(input: &[u64], rng: &mut Rng) -> Self {
        Starting {
            input: Lent::new(input, |_| rng.doubleword()),
            cursor: Lent::buffer(Cursor::WORDS, rng),
        }
    }

    pub fn image(&self) -> Image {
        self.cursor.words().try_into().expect("a cursor's words")
    }
}

impl Lend for Starting {
    fn library(&mut self) -> u64 {
        words::start(self.input.words(), image_mut(&mut self.cursor));
        0
    }

    fn model(&mut self) -> u64 {
        let cursor = StreamCursor::start(self.input.words());
        *image_mut(&mut self.cursor) = image_of(&cursor);
        0
    }

    fn compare(&self, wanted: &Self) -> Result<(), String> {
        self.input.compare(&wanted.input, "input")?;
        self.cursor.compare(&wanted.cursor, "cursor")
    }

    fn about(&self) -> String {
        format!("{} input words", self.input.words().len())
    }
}
