//! Takes registers and the immediate out of the operands objdump prints.

use crate::forms::{Form, Format};

/// What objdump names of a word's operands.
#[derive(Clone, Copy, Debug, Default, PartialEq, Eq)]
pub struct Operands {
    pub rd: Option<u32>,
    pub rs1: Option<u32>,
    pub rs2: Option<u32>,
    pub imm: Option<i64>,
}

/// `None` where the text is not what the form's operands look like.
pub fn parse(form: &Form, text: &str, address: u64) -> Option<Operands> {
    let parts: Vec<&str> = match text {
        "" => Vec::new(),
        _ => text.split(',').collect(),
    };
    match (form.format, parts.as_slice()) {
        (Format::System, []) => Some(Operands::default()),
        // objdump names no register, and the sets are not compared.
        (Format::Fence, [_, _]) => Some(Operands::default()),
        (_, &[first, second]) => two(form, first, second, address),
        (_, &[first, second, third]) => three(form, first, second, third, address),
        _ => None,
    }
}

fn two(form: &Form, first: &str, second: &str, address: u64) -> Option<Operands> {
    let first = Some(register(first)?);
    let mut found = Operands::default();
    match form.format {
        Format::Upper => {
            found.rd = first;
            found.imm = upper_immediate(number(second)?)?;
        }
        Format::Jump => {
            found.rd = first;
            found.imm = Some(distance(second, address)?);
        }
        Format::Offset => {
            found.rd = first;
            (found.imm, found.rs1) = offset_and_base(second)?;
        }
        Format::Store => {
            found.rs2 = first;
            (found.imm, found.rs1) = offset_and_base(second)?;
        }
        _ => return None,
    }
    Some(found)
}

fn three(form: &Form, first: &str, second: &str, third: &str, address: u64) -> Option<Operands> {
    let (first, second) = (Some(register(first)?), Some(register(second)?));
    let mut found = Operands {
        rd: first,
        rs1: second,
        ..Operands::default()
    };
    match form.format {
        Format::Register => found.rs2 = Some(register(third)?),
        Format::Immediate => found.imm = Some(number(third)?),
        // objdump prints the amount; the I immediate also holds what the form fixes.
        Format::Shift6 | Format::Shift5 => {
            found.imm = Some(form.shift_constant() + number(third)?);
        }
        Format::Branch => {
            (found.rd, found.rs1, found.rs2) = (None, first, second);
            found.imm = Some(distance(third, address)?);
        }
        _ => return None,
    }
    Some(found)
}

/// The two parts of `imm(rs1)`.
fn offset_and_base(text: &str) -> Option<(Option<i64>, Option<u32>)> {
    let (offset, base) = text.strip_suffix(')')?.split_once('(')?;
    Some((Some(number(offset)?), Some(register(base)?)))
}

/// The immediate of lui and auipc. Where bit 31 is set, the manual extends the
/// sign and the reference does not, so that immediate is not compared. The outer
/// `None` is a value that does not fit the field.
fn upper_immediate(upper: i64) -> Option<Option<i64>> {
    match upper {
        0..=0x7_ffff => Some(Some(upper << 12)),
        0x8_0000..=0xf_ffff => Some(None),
        _ => None,
    }
}

/// The offset to an absolute target; addresses wrap at 64 bits.
fn distance(target: &str, address: u64) -> Option<i64> {
    let digits = target.strip_prefix("0x")?;
    let target = u64::from_str_radix(digits, 16).ok()?;
    Some(target.wrapping_sub(address) as i64)
}

fn register(text: &str) -> Option<u32> {
    let number = text.strip_prefix('x')?.parse().ok()?;
    (number < 32).then_some(number)
}

/// A decimal number with or without a sign, or a hexadecimal one after `0x`.
fn number(text: &str) -> Option<i64> {
    match text.strip_prefix("0x") {
        Some(digits) => i64::from_str_radix(digits, 16).ok(),
        None => text.parse().ok(),
    }
}

#[cfg(test)]
mod tests {
    use super::*;
    use crate::forms::FORMS;

    fn parsed(mnemonic: &str, text: &str, address: u64) -> Option<[Option<i64>; 4]> {
        let form = FORMS.iter().find(|form| form.mnemonic == mnemonic).unwrap();
        let found = parse(form, text, address)?;
        Some([
            found.rd.map(i64::from),
            found.rs1.map(i64::from),
            found.rs2.map(i64::from),
            found.imm,
        ])
    }

    #[test]
    fn each_format() {
        let (a, b, c) = (Some(1), Some(2), Some(31));
        assert_eq!(parsed("add", "x1,x2,x31", 0), Some([a, b, c, None]));
        assert_eq!(parsed("addi", "x1,x2,-5", 0), Some([a, b, None, Some(-5)]));
        assert_eq!(parsed("ld", "x1,-8(x2)", 0), Some([a, b, None, Some(-8)]));
        assert_eq!(parsed("jalr", "x1,0(x2)", 0), Some([a, b, None, Some(0)]));
        assert_eq!(parsed("sd", "x31,8(x2)", 0), Some([None, b, c, Some(8)]));
        assert_eq!(parsed("ecall", "", 0), Some([None; 4]));
        assert_eq!(parsed("fence", "iorw,unknown", 0), Some([None; 4]));
    }

    #[test]
    fn shifts_hold_what_the_form_fixes() {
        let (a, b) = (Some(1), Some(2));
        let shift = |name, text| parsed(name, text, 0);
        assert_eq!(shift("slli", "x1,x2,0x3f"), Some([a, b, None, Some(0x3f)]));
        assert_eq!(shift("srai", "x1,x2,0x3f"), Some([a, b, None, Some(0x43f)]));
        assert_eq!(shift("sraiw", "x1,x2,0x1"), Some([a, b, None, Some(0x401)]));
    }

    #[test]
    fn targets_are_relative_and_signed() {
        let back = parsed("beq", "x1,x2,0xfffffffffffff028", 0x28);
        assert_eq!(back, Some([None, Some(1), Some(2), Some(-4096)]));
        let forth = parsed("jal", "x1,0x10002e", 0x30);
        assert_eq!(forth, Some([Some(1), None, None, Some(1_048_574)]));
    }

    #[test]
    fn upper_values() {
        let low = parsed("lui", "x1,0x7ffff", 0);
        assert_eq!(low, Some([Some(1), None, None, Some(0x7fff_f000)]));
        let high = parsed("auipc", "x1,0x80000", 0);
        assert_eq!(high, Some([Some(1), None, None, None]));
        assert_eq!(parsed("lui", "x1,0x100000", 0), None);
    }

    #[test]
    fn strange_text_is_refused() {
        assert_eq!(parsed("add", "x1,x2", 0), None);
        assert_eq!(parsed("add", "x1,x2,5", 0), None);
        assert_eq!(parsed("add", "x1,x2,x32", 0), None);
        assert_eq!(parsed("ld", "x1,8[x2]", 0), None);
        assert_eq!(parsed("ecall", "x1", 0), None);
    }
}
