//! The flags of a record.

#![forbid(unsafe_code)]

use crate::Record;
use core::fmt;
use core::ops::BitOr;

/// The flags of a record: word 16 div 2^16.
///
/// As text they are the names of those set, lowest bit first; bits without a name
/// follow as one number.
///
/// ```
/// use magnetar_cpu::Flags;
///
/// let flags = Flags::WE | Flags::IS_ARITH;
/// assert!(flags.we() && !flags.is_load());
/// assert_eq!(flags.to_string(), "we is_arith");
/// ```
#[derive(Clone, Copy, Default, PartialEq, Eq, Hash)]
pub struct Flags {
    bits: u64,
}

/// Each flag's constant and reader, here and in [`Record`], whose constants are
/// the bits of word 16.
macro_rules! flags {
    ($($(#[$doc:meta])* $flag:ident $name:ident $bit:literal)*) => {
        impl Flags {
            $($(#[$doc])* pub const $flag: Flags = Flags::new(1 << $bit);)*
            $($(#[$doc])* pub fn $name(self) -> bool { self.contains(Self::$flag) })*

            const NAMED: [(&'static str, Flags); 12] = [$((stringify!($name), Self::$flag)),*];
        }

        impl Record<'_> {
            $($(#[$doc])* pub const $flag: u64 = Flags::$flag.bits() << 16;)*
            $($(#[$doc])* pub fn $name(&self) -> bool { self.flags().$name() })*
        }
    };
}

flags! {
    /// The row writes a result.
    WE we 0
    /// A branch is taken.
    BRANCH_TAKEN branch_taken 1
    /// An addition, a difference, a comparison, a load or a branch.
    IS_ARITH is_arith 2
    /// XOR, OR or AND.
    IS_LOGIC is_logic 3
    /// A difference of registers, a comparison or a branch.
    IS_SUB_OP is_sub_op 4
    /// A shift of one row.
    IS_SHIFT is_shift 5
    /// A load.
    IS_LOAD is_load 6
    /// A store.
    IS_STORE is_store 7
    /// A load of a byte.
    LD_BYTE ld_byte 8
    /// A load of two bytes.
    LD_HALF ld_half 9
    /// A load of neither one byte nor two.
    LD_WORD ld_word 10
    /// The halting cycle, and every padding cycle.
    HALTED_LATCH halted_latch 11
}

impl Flags {
    /// The flags of these bits, [`Flags::WE`] the lowest.
    pub const fn new(bits: u64) -> Self {
        Flags { bits }
    }

    /// The bits, [`Flags::WE`] the lowest.
    pub const fn bits(self) -> u64 {
        self.bits
    }

    /// Whether all of the others are set.
    pub fn contains(self, others: Flags) -> bool {
        self.bits & others.bits == others.bits
    }

    fn write(self, f: &mut fmt::Formatter, between: &str) -> fmt::Result {
        if self.bits == 0 {
            return f.write_str("none");
        }
        let (mut nameless, mut separator) = (self.bits, "");
        for (name, flag) in Self::NAMED {
            if self.contains(flag) {
                write!(f, "{separator}{name}")?;
                nameless &= !flag.bits;
                separator = between;
            }
        }
        if nameless != 0 {
            write!(f, "{separator}{nameless:#x}")?;
        }
        Ok(())
    }
}

impl BitOr for Flags {
    type Output = Flags;

    fn bitor(self, others: Flags) -> Flags {
        Flags::new(self.bits | others.bits)
    }
}

impl fmt::Display for Flags {
    fn fmt(&self, f: &mut fmt::Formatter) -> fmt::Result {
        self.write(f, " ")
    }
}

impl fmt::Debug for Flags {
    fn fmt(&self, f: &mut fmt::Formatter) -> fmt::Result {
        f.write_str("Flags(")?;
        self.write(f, " | ")?;
        f.write_str(")")
    }
}

#[cfg(test)]
mod tests {
    use super::*;
    use crate::RECORD_WORDS;
    use std::format;
    use std::string::ToString;

    /// 01's order: a flag of another bit would tell another name.
    #[test]
    fn every_flag_has_its_own_bit() {
        let names = [
            "we",
            "branch_taken",
            "is_arith",
            "is_logic",
            "is_sub_op",
            "is_shift",
            "is_load",
            "is_store",
            "ld_byte",
            "ld_half",
            "ld_word",
            "halted_latch",
        ];
        for (bit, name) in names.into_iter().enumerate() {
            let mut words = [0; RECORD_WORDS];
            words[16] = 0x0807 | 0x1_0000 << bit;
            let record = Record::new(&words);
            assert_eq!(record.flags().to_string(), name);
            assert_eq!((record.byte_offset(), record.store_width()), (7, 8));
        }
    }

    #[test]
    fn flags_as_text() {
        let text = |bits| format!("{0} {0:?}", Flags::new(bits));
        assert_eq!(text(0), "none Flags(none)");
        assert_eq!(text(0b101), "we is_arith Flags(we | is_arith)");
        assert_eq!(text(1 << 12), "0x1000 Flags(0x1000)");
        let all = Flags::new((1 << 48) - 1).to_string();
        assert!(all.starts_with("we branch_taken "), "{all}");
        assert!(all.ends_with(" halted_latch 0xfffffffff000"), "{all}");
    }

    #[test]
    fn flags_together() {
        let both = Flags::IS_LOAD | Flags::LD_BYTE;
        assert!(both.contains(Flags::IS_LOAD) && both.contains(Flags::LD_BYTE));
        assert!(!Flags::IS_LOAD.contains(both));
        assert_eq!(both.bits(), 0b1_0100_0000);
    }
}
