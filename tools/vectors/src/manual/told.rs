//! Reads the stored lists of cases, for the tests of what is in them.

use super::case::Case;
use super::{stored, MANUAL};
use crate::forms::FORMS;
use crate::list::fed_lines;
use std::collections::HashSet;
use std::hash::Hash;

/// A case of a list.
pub struct Told {
    pub letter: char,
    pub case: Case,
    /// What is said of it.
    pub results: Vec<String>,
}

pub fn told(name: &str) -> Vec<Told> {
    let list = stored(name);
    let list = list.as_bytes();
    let parts = MANUAL.parts(list).into_iter();
    parts.map(|part| told_case(&list[part])).collect()
}

fn told_case(part: &[u8]) -> Told {
    let lines: Vec<&[u8]> = fed_lines(part).collect();
    let letter = char::from(part[0]);
    let (case, behind) = Case::read(letter, &lines).expect("the form of a case");
    let results = lines[behind..]
        .iter()
        .map(|line| String::from_utf8_lossy(line).trim_end().to_string());
    Told {
        letter,
        case,
        results: results.collect(),
    }
}

impl Told {
    /// The first word, which is the only one of agreeing cases.
    pub fn word(&self) -> Fields {
        Fields(self.case.words[0])
    }

    pub fn mnemonic(&self) -> &'static str {
        self.word().mnemonic().expect("an instruction of RV64I")
    }

    /// The contents of rs1 and rs2 before it.
    pub fn sources(&self) -> (u64, u64) {
        let registers = self.case.registers();
        let [_, left, right] = self.word().registers();
        (registers[left], registers[right])
    }

    /// The different answers to a question about the cases.
    pub fn answers<T: Eq + Hash>(
        told: &[&Told],
        question: impl Fn(&Told) -> Option<T>,
    ) -> HashSet<T> {
        told.iter().filter_map(|told| question(told)).collect()
    }
}

/// A word, taken apart by the manual's places.
#[derive(Clone, Copy)]
pub struct Fields(pub u32);

impl Fields {
    /// rd, rs1 and rs2.
    pub fn registers(self) -> [usize; 3] {
        [7, 15, 20].map(|place| (self.0 >> place & 0x1f) as usize)
    }

    /// The I immediate, or the S immediate of a store.
    pub fn imm(self) -> i64 {
        let upper = i64::from(self.0 as i32 >> 25) << 5;
        match self.0 & 0x7f {
            0x23 => upper | i64::from(self.0 >> 7 & 0x1f),
            _ => upper | i64::from(self.0 >> 20 & 0x1f),
        }
    }

    /// The instruction of RV64I.
    pub fn mnemonic(self) -> Option<&'static str> {
        let form = FORMS.iter().find(|form| form.fits(self.0));
        form.map(|form| form.mnemonic)
    }
}

/// The instructions on which the recorder agrees with the manual, by 01 and T-01.
pub const AGREEING: &str = "add sub xor or and slt sltu addi xori ori andi slti sltiu slli srli \
    srai sll srl sra lbu sb lhu sh sw ld sd beq bne blt bge bltu bgeu lui";
