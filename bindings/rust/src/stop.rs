//! Why a run stopped.

#![forbid(unsafe_code)]

use core::fmt;

/// Why a run stopped: [`Cursor::stop`](crate::Cursor::stop) and
/// [`Execution::stop`](crate::Execution::stop). All but the limit are halts, and
/// the recorder halts at them alike.
#[derive(Clone, Copy, Debug, PartialEq, Eq, Hash)]
#[non_exhaustive]
pub enum Stop {
    /// It has not halted: all cycles asked for were live.
    Limit,
    /// The word 0x00000073.
    Ecall,
    /// The word 0x00100073.
    Ebreak,
    /// Opcode 0x0f, whatever the other bits are.
    Fence,
    /// A word that is no instruction of RV64I: of an opcode that it does not
    /// have, or of 0x73 but neither ecall nor ebreak.
    Undefined(u32),
}

impl Stop {
    /// Why a machine halts at this word, `None` if it does not.
    pub(crate) fn of_word(word: u32) -> Option<Stop> {
        match (word, word & 0x7f) {
            (0x0000_0073, _) => Some(Stop::Ecall),
            (0x0010_0073, _) => Some(Stop::Ebreak),
            (_, 0x0f) => Some(Stop::Fence),
            // Loads, immediate forms, auipc, immediate forms of 32 bits.
            (_, 0x03 | 0x13 | 0x17 | 0x1b) => None,
            // Stores, register forms, lui, register forms of 32 bits.
            (_, 0x23 | 0x33 | 0x37 | 0x3b) => None,
            // Branches, jalr, jal.
            (_, 0x63 | 0x67 | 0x6f) => None,
            _ => Some(Stop::Undefined(word)),
        }
    }
}

impl fmt::Display for Stop {
    fn fmt(&self, f: &mut fmt::Formatter) -> fmt::Result {
        match self {
            Stop::Limit => f.write_str("the limit of cycles"),
            Stop::Ecall => f.write_str("ecall"),
            Stop::Ebreak => f.write_str("ebreak"),
            Stop::Fence => f.write_str("fence"),
            Stop::Undefined(word) => write!(f, "the undefined word {word:#010x}"),
        }
    }
}

#[cfg(test)]
mod tests {
    use super::*;
    use std::string::ToString;

    #[test]
    fn stops_as_text() {
        assert_eq!(Stop::Limit.to_string(), "the limit of cycles");
        assert_eq!(Stop::Ecall.to_string(), "ecall");
        assert_eq!(Stop::Ebreak.to_string(), "ebreak");
        assert_eq!(Stop::Fence.to_string(), "fence");
        let undefined = Stop::Undefined(0x0b).to_string();
        assert_eq!(undefined, "the undefined word 0x0000000b");
    }
}
