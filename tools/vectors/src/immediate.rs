//! The five immediate formats and the values at their boundaries.

use crate::encode;

#[derive(Clone, Copy, Debug, PartialEq, Eq)]
pub enum Immediate {
    I,
    S,
    B,
    U,
    J,
}

impl Immediate {
    /// The bits of the word that hold `value`.
    pub fn place(self, value: i64) -> u32 {
        match self {
            Immediate::I => encode::i(value),
            Immediate::S => encode::s(value),
            Immediate::B => encode::b(value),
            Immediate::U => encode::u(value),
            Immediate::J => encode::j(value),
        }
    }

    /// Zero, one step up and down, the smallest and the largest value.
    pub fn boundaries(self) -> Vec<i64> {
        let step = self.step();
        vec![0, step, -step, self.smallest(), self.largest()]
    }

    /// The neighbours of the smallest and the largest value inside the range.
    pub fn neighbours(self) -> [i64; 2] {
        [self.smallest() + self.step(), self.largest() - self.step()]
    }

    /// Each bit of the immediate alone.
    pub fn single_bits(self) -> Vec<i64> {
        let first = self.step().trailing_zeros();
        (first..self.width()).map(|bit| 1 << bit).collect()
    }

    /// Every other bit, both ways; `place` drops what does not fit.
    pub fn alternating(self) -> [i64; 2] {
        [0x5555_5555, !0x5555_5555]
    }

    /// Width in bits, the lowest bit included even where it is not stored.
    fn width(self) -> u32 {
        match self {
            Immediate::I | Immediate::S => 12,
            Immediate::B => 13,
            Immediate::U => 20,
            Immediate::J => 21,
        }
    }

    /// The smallest difference of two values: branch and jump offsets are even.
    fn step(self) -> i64 {
        match self {
            Immediate::B | Immediate::J => 2,
            _ => 1,
        }
    }

    fn smallest(self) -> i64 {
        -(1 << (self.width() - 1))
    }

    fn largest(self) -> i64 {
        (1 << (self.width() - 1)) - self.step()
    }
}

#[cfg(test)]
mod tests {
    use super::*;

    #[test]
    fn ranges_of_the_manual() {
        assert_eq!(Immediate::I.boundaries(), [0, 1, -1, -2048, 2047]);
        assert_eq!(Immediate::B.boundaries(), [0, 2, -2, -4096, 4094]);
        assert_eq!(Immediate::J.neighbours(), [-1_048_574, 1_048_572]);
        assert_eq!(Immediate::U.single_bits().len(), 20);
        assert_eq!(Immediate::B.single_bits().first(), Some(&2));
        assert_eq!(Immediate::J.single_bits().last(), Some(&(1 << 20)));
    }

    #[test]
    fn single_bits_fill_the_field() {
        use Immediate::{B, I, J, S, U};
        for format in [I, S, B, U, J] {
            let all = format.single_bits().iter().fold(0, |bits, &value| {
                let word = format.place(value);
                assert_eq!(word.count_ones(), 1, "{format:?} {value:#x}");
                bits | word
            });
            assert_eq!(all, format.place(-1), "{format:?}");
        }
    }
}
