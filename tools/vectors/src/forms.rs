//! The 52 instruction forms of RV64I, from the manual's instruction listings.

/// What a form is made of, and how objdump writes its operands.
#[derive(Clone, Copy, Debug, PartialEq, Eq)]
pub enum Format {
    /// `rd,rs1,rs2`
    Register,
    /// `rd,rs1,imm`
    Immediate,
    /// `rd,imm(rs1)`
    Offset,
    /// `rd,rs1,amount`, amount of 6 bits
    Shift6,
    /// `rd,rs1,amount`, amount of 5 bits
    Shift5,
    /// `rs2,imm(rs1)`
    Store,
    /// `rs1,rs2,target`
    Branch,
    /// `rd,upper`
    Upper,
    /// `rd,target`
    Jump,
    /// `predecessors,successors`
    Fence,
    /// no operands
    System,
}

use Format::{
    Branch, Fence, Immediate, Jump, Offset, Register, Shift5, Shift6, Store, System, Upper,
};

#[derive(Clone, Copy, Debug, PartialEq, Eq)]
pub struct Form {
    pub mnemonic: &'static str,
    /// The name of the major opcode, as the listing writes it.
    pub class: &'static str,
    pub format: Format,
    /// The word with all operand bits zero (the manual's "match").
    pub base: u32,
}

impl Form {
    /// Whether a word has all the bits that the form fixes.
    #[cfg(test)]
    pub fn fits(&self, word: u32) -> bool {
        let mask = match self.format {
            Register | Shift5 => 0xfe00_707f,
            Shift6 => 0xfc00_707f,
            Upper | Jump => 0x7f,
            System => u32::MAX,
            _ => 0x707f,
        };
        word & mask == self.base
    }

    /// funct3, where the form fixes it.
    pub fn funct3(&self) -> Option<u32> {
        match self.format {
            Upper | Jump => None,
            _ => Some((self.base >> 12) & 7),
        }
    }

    /// funct7, where the form fixes it. The lowest bit of a 6-bit shift amount
    /// lies in it, so the 64-bit shifts do not.
    pub fn funct7(&self) -> Option<u32> {
        match self.format {
            Register | Shift5 | System => Some(self.base >> 25),
            _ => None,
        }
    }

    /// The part of the 12-bit I immediate that a shift form fixes.
    pub fn shift_constant(&self) -> i64 {
        i64::from(self.base >> 20)
    }
}

const fn form(mnemonic: &'static str, class: &'static str, format: Format, base: u32) -> Form {
    Form {
        mnemonic,
        class,
        format,
        base,
    }
}

pub const FORMS: [Form; 52] = [
    form("lui", "Lui", Upper, 0x0000_0037),
    form("auipc", "Auipc", Upper, 0x0000_0017),
    form("jal", "Jal", Jump, 0x0000_006f),
    form("jalr", "Jalr", Offset, 0x0000_0067),
    form("beq", "Branch", Branch, 0x0000_0063),
    form("bne", "Branch", Branch, 0x0000_1063),
    form("blt", "Branch", Branch, 0x0000_4063),
    form("bge", "Branch", Branch, 0x0000_5063),
    form("bltu", "Branch", Branch, 0x0000_6063),
    form("bgeu", "Branch", Branch, 0x0000_7063),
    form("lb", "Load", Offset, 0x0000_0003),
    form("lh", "Load", Offset, 0x0000_1003),
    form("lw", "Load", Offset, 0x0000_2003),
    form("ld", "Load", Offset, 0x0000_3003),
    form("lbu", "Load", Offset, 0x0000_4003),
    form("lhu", "Load", Offset, 0x0000_5003),
    form("lwu", "Load", Offset, 0x0000_6003),
    form("sb", "Store", Store, 0x0000_0023),
    form("sh", "Store", Store, 0x0000_1023),
    form("sw", "Store", Store, 0x0000_2023),
    form("sd", "Store", Store, 0x0000_3023),
    form("addi", "OpImm", Immediate, 0x0000_0013),
    form("slti", "OpImm", Immediate, 0x0000_2013),
    form("sltiu", "OpImm", Immediate, 0x0000_3013),
    form("xori", "OpImm", Immediate, 0x0000_4013),
    form("ori", "OpImm", Immediate, 0x0000_6013),
    form("andi", "OpImm", Immediate, 0x0000_7013),
    form("slli", "OpImm", Shift6, 0x0000_1013),
    form("srli", "OpImm", Shift6, 0x0000_5013),
    form("srai", "OpImm", Shift6, 0x4000_5013),
    form("add", "Op", Register, 0x0000_0033),
    form("sub", "Op", Register, 0x4000_0033),
    form("sll", "Op", Register, 0x0000_1033),
    form("slt", "Op", Register, 0x0000_2033),
    form("sltu", "Op", Register, 0x0000_3033),
    form("xor", "Op", Register, 0x0000_4033),
    form("srl", "Op", Register, 0x0000_5033),
    form("sra", "Op", Register, 0x4000_5033),
    form("or", "Op", Register, 0x0000_6033),
    form("and", "Op", Register, 0x0000_7033),
    form("addiw", "OpImm32", Immediate, 0x0000_001b),
    form("slliw", "OpImm32", Shift5, 0x0000_101b),
    form("srliw", "OpImm32", Shift5, 0x0000_501b),
    form("sraiw", "OpImm32", Shift5, 0x4000_501b),
    form("addw", "Op32", Register, 0x0000_003b),
    form("subw", "Op32", Register, 0x4000_003b),
    form("sllw", "Op32", Register, 0x0000_103b),
    form("srlw", "Op32", Register, 0x0000_503b),
    form("sraw", "Op32", Register, 0x4000_503b),
    form("fence", "Fence", Fence, 0x0000_000f),
    form("ecall", "Ecall", System, 0x0000_0073),
    form("ebreak", "Ebreak", System, 0x0010_0073),
];

#[cfg(test)]
mod tests {
    use super::*;
    use std::collections::HashSet;

    fn named(mnemonic: &str) -> Form {
        *FORMS
            .iter()
            .find(|form| form.mnemonic == mnemonic)
            .expect("a form of the table")
    }

    #[test]
    fn forms_differ() {
        let mnemonics: HashSet<&str> = FORMS.iter().map(|form| form.mnemonic).collect();
        let bases: HashSet<u32> = FORMS.iter().map(|form| form.base).collect();
        assert_eq!((mnemonics.len(), bases.len()), (52, 52));
    }

    #[test]
    fn funct_columns_only_where_fixed() {
        let columns = |name| (named(name).funct3(), named(name).funct7());
        assert_eq!(columns("lui"), (None, None));
        assert_eq!(columns("jal"), (None, None));
        assert_eq!(columns("andi"), (Some(7), None));
        assert_eq!(columns("srai"), (Some(5), None));
        assert_eq!(columns("sraiw"), (Some(5), Some(0x20)));
        assert_eq!(columns("sub"), (Some(0), Some(0x20)));
        assert_eq!(columns("ebreak"), (Some(0), Some(0)));
    }

    #[test]
    fn shift_constants() {
        assert_eq!(named("slli").shift_constant(), 0);
        assert_eq!(named("srai").shift_constant(), 0x400);
        assert_eq!(named("sraiw").shift_constant(), 0x400);
    }
}
