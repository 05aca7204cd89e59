//! The cursor of a machine, in the words that are lent to the library.

#![forbid(unsafe_code)]

use crate::Stop;
use core::fmt;
use core::ops::Range;

/// The words of a cursor, in the order of the library's interface. The
/// constants of [`Cursor`] are the places in it.
pub type Image = [u64; Cursor::WORDS];

/// What a segment or padding call goes on from, and what it leaves. A clone of
/// it is a checkpoint: calls from the clone give the same records.
///
/// Cursors are equal if all their words are;
/// [`same_checkpoint`](crate::same_checkpoint) is coarser. `{}` says in one line
/// where the machine is, `{:?}` has all words but registers and RAM words that
/// are 0.
#[derive(Clone, PartialEq, Eq)]
pub struct Cursor {
    image: Image,
}

impl Cursor {
    /// How many words an image has.
    pub const WORDS: usize = 325;
    /// The places of the 64 registers. Cell 0 is not always 0: register shifts
    /// keep their value there. Cells 32 to 63 are no registers of a program.
    pub const REGS: Range<usize> = 0..64;
    /// The places of the 256 words of RAM.
    pub const RAM: Range<usize> = 64..320;
    /// The row that the next live cycle runs.
    pub const MICRO_PC: usize = 320;
    /// How many live cycles have run.
    pub const CYCLES: usize = 321;
    /// 0 is a live machine, any other word a halted one.
    pub const HALTED: usize = 322;
    /// Register 10 at the halt, before it 0.
    pub const OUTPUT: usize = 323;
    /// The row that the next padding cycle shows.
    pub const NEXT_FETCH: usize = 324;

    /// Any words will do; a call refuses those that it cannot go on from.
    pub fn new(image: Image) -> Self {
        Cursor { image }
    }

    /// All words, for example to store them.
    pub fn image(&self) -> &Image {
        &self.image
    }

    /// All words, to be changed.
    pub fn image_mut(&mut self) -> &mut Image {
        &mut self.image
    }

    /// The 64 registers.
    pub fn regs(&self) -> &[u64] {
        &self.image[Self::REGS]
    }

    /// The 256 words of RAM.
    pub fn ram(&self) -> &[u64] {
        &self.image[Self::RAM]
    }

    /// The row that the next live cycle runs.
    pub fn micro_pc(&self) -> u64 {
        self.image[Self::MICRO_PC]
    }

    /// How many live cycles have run.
    pub fn cycles(&self) -> u64 {
        self.image[Self::CYCLES]
    }

    /// Whether the machine has halted.
    pub fn is_halted(&self) -> bool {
        self.image[Self::HALTED] != 0
    }

    /// Register 10 at the halt, before it 0.
    pub fn output(&self) -> u64 {
        self.image[Self::OUTPUT]
    }

    /// The row that the next padding cycle shows.
    pub fn next_fetch(&self) -> u64 {
        self.image[Self::NEXT_FETCH]
    }

    /// Why the machine stopped, on the rows that it ran. A halted machine stays at
    /// the row at which it halted, so that row tells.
    ///
    /// `None` if the machine is halted and no row that halts stands at micro_pc:
    /// the rows are others, or the image was filled by hand. From a fresh cursor
    /// no call leaves that.
    pub fn stop(&self, rows: &[u64]) -> Option<Stop> {
        if !self.is_halted() {
            return Some(Stop::Limit);
        }
        let row = rows.get(usize::try_from(self.micro_pc()).ok()?)?;
        Stop::of_word(*row as u32)
    }
}

impl From<Image> for Cursor {
    fn from(image: Image) -> Self {
        Cursor::new(image)
    }
}

impl From<Cursor> for Image {
    fn from(cursor: Cursor) -> Self {
        cursor.image
    }
}

impl fmt::Display for Cursor {
    fn fmt(&self, f: &mut fmt::Formatter) -> fmt::Result {
        write!(f, "row {}, cycles {}, ", self.micro_pc(), self.cycles())?;
        if self.is_halted() {
            write!(f, "halted with output {}", self.output())
        } else {
            f.write_str("running")
        }
    }
}

impl fmt::Debug for Cursor {
    fn fmt(&self, f: &mut fmt::Formatter) -> fmt::Result {
        f.debug_struct("Cursor")
            .field("micro_pc", &self.micro_pc())
            .field("cycles", &self.cycles())
            .field("halted", &self.image[Self::HALTED])
            .field("output", &self.output())
            .field("next_fetch", &self.next_fetch())
            .field("regs", &NotZero(self.regs()))
            .field("ram", &NotZero(self.ram()))
            .finish()
    }
}

/// The words that are not 0, each with its number.
pub(crate) struct NotZero<'a>(pub(crate) &'a [u64]);

impl fmt::Debug for NotZero<'_> {
    fn fmt(&self, f: &mut fmt::Formatter) -> fmt::Result {
        let words = self.0.iter().enumerate();
        f.debug_map()
            .entries(words.filter(|(_, &word)| word != 0))
            .finish()
    }
}

#[cfg(test)]
mod tests {
    use super::*;
    use std::format;

    fn with(words: &[(usize, u64)]) -> Cursor {
        let mut image = [0; Cursor::WORDS];
        words.iter().for_each(|&(place, word)| image[place] = word);
        Cursor::from(image)
    }

    #[test]
    fn cursors_as_text() {
        let running = with(&[(Cursor::MICRO_PC, 3), (Cursor::CYCLES, 5)]);
        assert_eq!(format!("{running}"), "row 3, cycles 5, running");
        let halted = with(&[(5, 1200), (64 + 255, 9), (322, 2), (323, 7), (324, 1)]);
        assert_eq!(format!("{halted}"), "row 0, cycles 0, halted with output 7");
        assert_eq!(
            format!("{halted:?}"),
            "Cursor { micro_pc: 0, cycles: 0, halted: 2, output: 7, next_fetch: 1, \
             regs: {5: 1200}, ram: {255: 9} }"
        );
    }

    #[test]
    fn every_word_counts_for_equality() {
        for place in 0..Cursor::WORDS {
            let cursor = with(&[(place, 1)]);
            assert_ne!(cursor, with(&[]));
            assert_eq!(cursor, cursor.clone());
            assert_eq!(Image::from(cursor)[place], 1);
        }
    }
}
