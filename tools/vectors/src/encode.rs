//! Puts registers and immediates into the places the manual gives them.
//!
//! Written from the manual, not from the decoder under test. Bits of an
//! immediate that its format cannot hold are dropped.

pub fn rd(number: u32) -> u32 {
    (number & 0x1f) << 7
}

pub fn rs1(number: u32) -> u32 {
    (number & 0x1f) << 15
}

pub fn rs2(number: u32) -> u32 {
    (number & 0x1f) << 20
}

pub fn i(imm: i64) -> u32 {
    bits(imm, 11, 0) << 20
}

pub fn s(imm: i64) -> u32 {
    bits(imm, 11, 5) << 25 | bits(imm, 4, 0) << 7
}

pub fn b(imm: i64) -> u32 {
    bits(imm, 12, 12) << 31 | bits(imm, 10, 5) << 25 | bits(imm, 4, 1) << 8 | bits(imm, 11, 11) << 7
}

/// `upper` is the 20-bit value of the field, as an assembler takes it.
pub fn u(upper: i64) -> u32 {
    bits(upper, 19, 0) << 12
}

pub fn j(imm: i64) -> u32 {
    bits(imm, 20, 20) << 31
        | bits(imm, 10, 1) << 21
        | bits(imm, 11, 11) << 20
        | bits(imm, 19, 12) << 12
}

/// Bits `high` down to `low`, moved to the bottom.
fn bits(value: i64, high: u32, low: u32) -> u32 {
    ((value >> low) & ((1 << (high - low + 1)) - 1)) as u32
}

#[cfg(test)]
mod tests {
    use super::*;

    // The expected words are what GNU as makes of the instruction named.
    #[test]
    fn words_of_the_assembler() {
        assert_eq!(i(5) | rd(10) | 0x13, 0x0050_0513, "addi x10,x0,5");
        assert_eq!(
            s(-8) | rs1(2) | rs2(1) | 0x3023,
            0xfe11_3c23,
            "sd x1,-8(x2)"
        );
        assert_eq!(b(-4) | rs1(1) | rs2(2) | 0x63, 0xfe20_8ee3, "beq x1,x2,.-4");
        assert_eq!(b(2048) | 0x63, 0x0000_00e3, "beq x0,x0,.+2048");
        assert_eq!(u(0x12345) | rd(5) | 0x37, 0x1234_52b7, "lui x5,0x12345");
        assert_eq!(j(2048) | rd(1) | 0x6f, 0x0010_00ef, "jal x1,.+2048");
        assert_eq!(j(-2) | rd(1) | 0x6f, 0xffff_f0ef, "jal x1,.-2");
    }

    #[test]
    fn formats_use_their_own_bits_only() {
        assert_eq!(i(-1), 0xfff0_0000);
        assert_eq!(s(-1), 0xfe00_0f80);
        assert_eq!(b(-1), 0xfe00_0f80);
        assert_eq!(u(-1), 0xffff_f000);
        assert_eq!(j(-1), 0xffff_f000);
    }
}
