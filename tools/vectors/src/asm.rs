//! Words by opcode, funct3 and operands. The manual does not define all of
//! them; the reference takes any funct3 and funct7.

use crate::encode::{b, i, j, rd, rs1, rs2, s, u};

/// `[rd, rs1, rs2]`
pub fn op(funct7: u32, funct3: u32, registers: [u32; 3]) -> u32 {
    0x33 | register_form(funct7, funct3, registers)
}

/// `[rd, rs1, rs2]`
pub fn op32(funct7: u32, funct3: u32, registers: [u32; 3]) -> u32 {
    0x3b | register_form(funct7, funct3, registers)
}

/// `[rd, rs1]`
pub fn op_imm(funct3: u32, registers: [u32; 2], imm: i64) -> u32 {
    0x13 | immediate_form(funct3, registers, imm)
}

/// `[rd, rs1]`
pub fn op_imm32(funct3: u32, registers: [u32; 2], imm: i64) -> u32 {
    0x1b | immediate_form(funct3, registers, imm)
}

/// `[rd, rs1]`
pub fn load(funct3: u32, registers: [u32; 2], imm: i64) -> u32 {
    0x03 | immediate_form(funct3, registers, imm)
}

/// `[rs2, rs1]`, in the order of an assembler: what is stored comes first.
pub fn store(funct3: u32, [source, base]: [u32; 2], imm: i64) -> u32 {
    0x23 | funct3 << 12 | rs1(base) | rs2(source) | s(imm)
}

/// `[rs1, rs2]`
pub fn branch(funct3: u32, [left, right]: [u32; 2], imm: i64) -> u32 {
    0x63 | funct3 << 12 | rs1(left) | rs2(right) | b(imm)
}

pub fn jal(link: u32, imm: i64) -> u32 {
    0x6f | rd(link) | j(imm)
}

/// `[rd, rs1]`
pub fn jalr(registers: [u32; 2], imm: i64) -> u32 {
    0x67 | immediate_form(0, registers, imm)
}

pub fn lui(register: u32, upper: i64) -> u32 {
    0x37 | rd(register) | u(upper)
}

pub fn auipc(register: u32, upper: i64) -> u32 {
    0x17 | rd(register) | u(upper)
}

/// `[rd, rs1]`
pub fn addi(registers: [u32; 2], imm: i64) -> u32 {
    op_imm(0, registers, imm)
}

/// `[rd, rs1]`
pub fn ld(registers: [u32; 2], imm: i64) -> u32 {
    load(3, registers, imm)
}

fn register_form(funct7: u32, funct3: u32, [d, left, right]: [u32; 3]) -> u32 {
    funct7 << 25 | funct3 << 12 | rd(d) | rs1(left) | rs2(right)
}

fn immediate_form(funct3: u32, [d, base]: [u32; 2], imm: i64) -> u32 {
    funct3 << 12 | rd(d) | rs1(base) | i(imm)
}

#[cfg(test)]
mod tests {
    use super::*;

    // The expected words are what GNU as makes of the instruction named.
    #[test]
    fn words_of_the_assembler() {
        assert_eq!(addi([10, 0], 5), 0x0050_0513, "addi x10,x0,5");
        assert_eq!(ld([1, 2], -8), 0xff81_3083, "ld x1,-8(x2)");
        assert_eq!(store(3, [1, 2], -8), 0xfe11_3c23, "sd x1,-8(x2)");
        assert_eq!(branch(0, [1, 2], -4), 0xfe20_8ee3, "beq x1,x2,.-4");
        assert_eq!(jal(1, 2048), 0x0010_00ef, "jal x1,.+2048");
        assert_eq!(jalr([0, 1], 0), 0x0000_8067, "jalr x0,0(x1)");
        assert_eq!(lui(5, 0x12345), 0x1234_52b7, "lui x5,0x12345");
        assert_eq!(auipc(31, 0xfffff), 0xffff_ff97, "auipc x31,0xfffff");
        assert_eq!(op(0, 0, [3, 1, 2]), 0x0020_81b3, "add x3,x1,x2");
        assert_eq!(op(0x20, 5, [3, 1, 2]), 0x4020_d1b3, "sra x3,x1,x2");
        assert_eq!(op32(0x20, 0, [3, 1, 2]), 0x4020_81bb, "subw x3,x1,x2");
        assert_eq!(op_imm(1, [1, 1], 63), 0x03f0_9093, "slli x1,x1,63");
        assert_eq!(op_imm32(0, [1, 2], -1), 0xfff1_009b, "addiw x1,x2,-1");
    }
}
