//! Lists of segment and padding calls.

/// Words of a record.
pub const RECORD: u64 = 17;
/// What a list keeps to, so that a replay can do with buffers of a fixed size.
pub const MOST_WORDS: usize = 256;
pub const MOST_ROWS: usize = 1024;
pub const MOST_INPUT: usize = 300;
pub const MOST_CYCLES: u64 = 512;
pub const MOST_ROOM: u64 = RECORD * MOST_CYCLES + 40;
/// The largest sum of cycles and length.
pub const MAX_TOTAL_CYCLES: u64 = 1 << 62;

/// A program, its input, and calls made one after another on one cursor.
pub struct CallList {
    pub program: Vec<u32>,
    pub input: Vec<u64>,
    pub calls: Vec<Call>,
}

#[derive(Clone, Copy, Debug, PartialEq, Eq)]
pub enum CallKind {
    Segment,
    Padding,
}

#[derive(Clone, Copy, Debug, PartialEq, Eq)]
pub struct Call {
    pub kind: CallKind,
    pub length: u64,
    /// Words of the record buffer.
    pub room: u64,
}

/// A segment call with a record buffer that is exactly long enough.
pub fn segment(length: u64) -> Call {
    exact(CallKind::Segment, length)
}

/// A padding call with a record buffer that is exactly long enough.
pub fn padding(length: u64) -> Call {
    exact(CallKind::Padding, length)
}

fn exact(kind: CallKind, length: u64) -> Call {
    let room = RECORD * length;
    Call { kind, length, room }
}

impl Call {
    /// Zero where the call is accepted on a machine of so many cycles, else the
    /// number of the refusal. The others cannot come: the rows are always the
    /// expansion of a program that is not empty.
    pub fn code(&self, cycles: u64) -> u64 {
        let sum = u128::from(cycles) + u128::from(self.length);
        let needed = u128::from(RECORD) * u128::from(self.length);
        if self.kind == CallKind::Segment && sum > u128::from(MAX_TOTAL_CYCLES) {
            5
        } else if needed > u128::from(self.room) {
            6
        } else {
            0
        }
    }
}

#[cfg(test)]
mod tests {
    use super::*;

    fn code(kind: CallKind, length: u64, room: u64, cycles: u64) -> u64 {
        Call { kind, length, room }.code(cycles)
    }

    #[test]
    fn the_lowest_refusal_comes_first() {
        use CallKind::{Padding, Segment};
        assert_eq!(code(Segment, 2, 34, 0), 0);
        assert_eq!(code(Segment, 2, 33, 0), 6);
        assert_eq!(code(Segment, 0, 0, MAX_TOTAL_CYCLES), 0);
        assert_eq!(code(Segment, 1, 17, MAX_TOTAL_CYCLES), 5);
        assert_eq!(code(Padding, 1, 17, MAX_TOTAL_CYCLES), 0);
        assert_eq!(code(Segment, MAX_TOTAL_CYCLES, 17, 0), 6);
        assert_eq!(code(Segment, MAX_TOTAL_CYCLES, 17, 1), 5);
        // Neither the sum nor the product wraps.
        assert_eq!(code(Segment, u64::MAX, 17, 1), 5);
        assert_eq!(code(Padding, u64::MAX / 17 + 1, 17, 0), 6);
    }
}
