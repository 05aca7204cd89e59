//! The listing line: the text of one decoded word, in fixed columns.

use magnetar_reference::decode::decode;
use std::fmt;
use std::ops::Range;

/// Characters of a line, without its line feed.
pub const WIDTH: usize = 47;
/// Bytes of a line in a list.
pub const STRIDE: usize = WIDTH + 1;
/// Stands for "not compared" in a stored line.
pub const UNCOMPARED: u8 = b'.';

pub const RAW: Range<usize> = 0..8;
pub const CLASS: Range<usize> = 9..16;
pub const RD: Range<usize> = 17..19;
pub const RS1: Range<usize> = 20..22;
pub const RS2: Range<usize> = 23..25;
pub const FUNCT3: Range<usize> = 26..27;
pub const FUNCT7: Range<usize> = 28..30;
pub const IMM: Range<usize> = 31..WIDTH;

/// What a line says. `None` is a column that is not compared.
#[derive(Clone, Debug, PartialEq, Eq)]
pub struct Line {
    pub raw: u32,
    pub class: String,
    pub rd: Option<u32>,
    pub rs1: Option<u32>,
    pub rs2: Option<u32>,
    pub funct3: Option<u32>,
    pub funct7: Option<u32>,
    pub imm: Option<i64>,
}

impl Line {
    /// The answer of the reference.
    pub fn of_reference(raw: u32) -> Self {
        let inst = decode(raw);
        Line {
            raw: inst.raw,
            class: format!("{:?}", inst.opcode),
            rd: Some(inst.rd as u32),
            rs1: Some(inst.rs1 as u32),
            rs2: Some(inst.rs2 as u32),
            funct3: Some(inst.funct3),
            funct7: Some(inst.funct7),
            imm: Some(inst.imm),
        }
    }
}

impl fmt::Display for Line {
    fn fmt(&self, f: &mut fmt::Formatter<'_>) -> fmt::Result {
        let column = |text: Option<String>, width| text.unwrap_or(".".repeat(width));
        let register = |number: Option<u32>| column(number.map(|n| format!("{n:02}")), RD.len());
        write!(
            f,
            "{:08x} {:<7} {} {} {} {} {} {}",
            self.raw,
            self.class,
            register(self.rd),
            register(self.rs1),
            register(self.rs2),
            column(self.funct3.map(|n| n.to_string()), FUNCT3.len()),
            column(self.funct7.map(|n| format!("{n:02x}")), FUNCT7.len()),
            column(self.imm.map(|n| format!("{n:016x}")), IMM.len()),
        )
    }
}

/// Lines as a list: each with its line feed.
pub fn join(lines: impl IntoIterator<Item = Line>) -> String {
    lines.into_iter().map(|line| format!("{line}\n")).collect()
}

/// Whether a stored line (without its line feed) is what the reference
/// answers for the word it names, in all columns that are compared.
pub fn holds(stored: &[u8]) -> bool {
    let Some(raw) = stored.get(RAW).and_then(raw_word) else {
        return false;
    };
    let answer = Line::of_reference(raw).to_string();
    stored.len() == answer.len()
        && stored
            .iter()
            .zip(answer.bytes())
            .all(|(&kept, given)| kept == UNCOMPARED || kept == given)
}

/// The word that eight lower-case hexadecimal digits name.
pub fn raw_word(digits: &[u8]) -> Option<u32> {
    digits.iter().try_fold(0, |word, digit| match digit {
        b'0'..=b'9' => Some(word << 4 | u32::from(digit - b'0')),
        b'a'..=b'f' => Some(word << 4 | u32::from(digit - b'a' + 10)),
        _ => None,
    })
}

#[cfg(test)]
mod tests {
    use super::*;

    const ADDI: &str = "00500513 OpImm   10 00 05 0 00 0000000000000005";

    #[test]
    fn the_example_line() {
        let line = Line::of_reference(0x0050_0513).to_string();
        assert_eq!(line, ADDI);
        assert_eq!(line.len(), WIDTH);
        assert_eq!(&line[CLASS], "OpImm  ");
        assert_eq!(&line[RS2], "05");
        assert_eq!(&line[IMM], "0000000000000005");
    }

    #[test]
    fn widest_columns_keep_the_width() {
        let line = Line::of_reference(0xffff_ff9b).to_string();
        assert_eq!(line, "ffffff9b OpImm32 31 31 31 7 7f ffffffffffffffff");
    }

    #[test]
    fn uncompared_columns_are_dots() {
        let line = Line {
            rd: None,
            rs1: None,
            rs2: None,
            funct3: None,
            funct7: None,
            imm: None,
            ..Line::of_reference(0x13)
        };
        let text = line.to_string();
        assert_eq!(text, "00000013 OpImm   .. .. .. . .. ................");
        assert!(holds(text.as_bytes()));
    }

    #[test]
    fn holds_only_where_all_is_right() {
        assert!(holds(ADDI.as_bytes()));
        assert!(!holds(ADDI.replace("05 0 00", "05 1 00").as_bytes()));
        assert!(!holds(ADDI.replace("0050051", "0050050").as_bytes()));
        assert!(!holds(ADDI.replace("0050051", ".050051").as_bytes()));
        assert!(!holds(&ADDI.as_bytes()[..40]));
        assert!(!holds(format!("{ADDI} ").as_bytes()));
    }

    #[test]
    fn raw_digits_are_lower_case() {
        let line = Line::of_reference(0x0000_000f).to_string();
        assert!(holds(line.as_bytes()));
        assert!(!holds(line.replacen('f', "F", 1).as_bytes()));
        assert!(!holds(line.replacen('f', "g", 1).as_bytes()));
    }
}
