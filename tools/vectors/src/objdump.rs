//! The list of an independent decoder: what GNU objdump says of each word.

use crate::forms::Form;
use crate::formwords;
use crate::listing::{join, Line};
use crate::operands;
use crate::tempfile::TempFile;
use crate::tool::{Tool, BINUTILS};
use std::process::Stdio;

const OBJDUMP: Tool = Tool {
    name: "riscv64-linux-gnu-objdump",
    package: BINUTILS,
};
const ARGUMENTS: [&str; 8] = [
    "-b",
    "binary",
    "-m",
    "riscv:rv64",
    "-D",
    "-z",
    "-M",
    "no-aliases,numeric",
];

/// One line of objdump's text.
#[derive(Debug, PartialEq, Eq)]
struct Answer<'a> {
    address: u64,
    raw: u32,
    mnemonic: &'a str,
    operands: &'a str,
    /// The whole line, for messages.
    text: &'a str,
}

pub fn listing() -> Result<String, String> {
    let words = formwords::all();
    let bytes: Vec<u8> = words
        .iter()
        .flat_map(|(_, word)| word.to_le_bytes())
        .collect();
    let text = disassemble(&bytes)?;
    let answers: Vec<Answer> = text.lines().filter_map(answer).collect();
    if answers.len() != words.len() {
        return Err(format!(
            "{} answered {} words of {}",
            OBJDUMP.name,
            answers.len(),
            words.len()
        ));
    }
    let lines: Result<Vec<Line>, String> = words
        .iter()
        .zip(&answers)
        .enumerate()
        .map(|(index, ((form, word), answer))| line(form, *word, 4 * index as u64, answer))
        .collect();
    Ok(join(lines?))
}

fn disassemble(bytes: &[u8]) -> Result<String, String> {
    let file = TempFile::new(bytes)?;
    let arguments = [&ARGUMENTS[..], &[file.text_path()?]].concat();
    let output = OBJDUMP.output(&arguments, Stdio::null())?;
    String::from_utf8(output).map_err(|error| format!("{}: {error}", OBJDUMP.name))
}

/// Splits `address:<tab>word<tab>mnemonic<tab>operands`. Lines without these
/// parts are headings.
fn answer(text: &str) -> Option<Answer<'_>> {
    let mut parts = text.split('\t');
    let address = parts.next()?.trim().strip_suffix(':')?;
    let raw = parts.next()?.trim();
    let mnemonic = parts.next()?.trim();
    let operands = parts.next().unwrap_or("");
    Some(Answer {
        address: u64::from_str_radix(address, 16).ok()?,
        raw: u32::from_str_radix(raw, 16).ok()?,
        mnemonic,
        operands: operands.split(['#', '<']).next()?.trim(),
        text,
    })
}

/// The listing line of an answer, which must be about the word asked for.
fn line(form: &Form, word: u32, address: u64, answer: &Answer) -> Result<Line, String> {
    let refuse = |why: &str| {
        let (mnemonic, text) = (form.mnemonic, answer.text);
        Err(format!("{word:08x} ({mnemonic}): {why}: `{text}`"))
    };
    if (answer.raw, answer.address) != (word, address) {
        return refuse("objdump answers another word");
    }
    if answer.mnemonic != form.mnemonic {
        return refuse("objdump names another instruction");
    }
    let Some(found) = operands::parse(form, answer.operands, answer.address) else {
        return refuse("operands not understood");
    };
    Ok(Line {
        raw: answer.raw,
        class: form.class.to_string(),
        rd: found.rd,
        rs1: found.rs1,
        rs2: found.rs2,
        funct3: form.funct3(),
        funct7: form.funct7(),
        imm: found.imm,
    })
}

#[cfg(test)]
mod tests {
    use super::*;
    use crate::forms::FORMS;
    use crate::listing::{holds, STRIDE};
    use crate::tool::unless_absent;

    const ADDI: &str = "   4:\t00500513          \taddi\tx10,x0,5 # 0x5";

    fn line_of(mnemonic: &str, word: u32, text: &str) -> Result<String, String> {
        let form = FORMS.iter().find(|form| form.mnemonic == mnemonic).unwrap();
        let answer = answer(text).expect("a line about a word");
        line(form, word, 4, &answer).map(|line| line.to_string())
    }

    #[test]
    fn lines_of_objdump() {
        let found = answer(ADDI).unwrap();
        assert_eq!((found.address, found.raw), (4, 0x0050_0513));
        assert_eq!((found.mnemonic, found.operands), ("addi", "x10,x0,5"));
        assert_eq!(
            answer("  74:\t00000073          \tecall").unwrap().operands,
            ""
        );
        assert_eq!(answer("0000000000000000 <.data>:"), None);
        assert_eq!(answer(""), None);
    }

    #[test]
    fn columns_are_those_objdump_names() {
        assert_eq!(
            line_of("addi", 0x0050_0513, ADDI).unwrap(),
            "00500513 OpImm   10 00 .. 0 .. 0000000000000005"
        );
        let fence = "   4:\t0ff0000f          \tfence\tiorw,iorw";
        assert_eq!(
            line_of("fence", 0x0ff0_000f, fence).unwrap(),
            "0ff0000f Fence   .. .. .. 0 .. ................"
        );
    }

    #[test]
    fn other_answers_are_refused() {
        let message = line_of("slti", 0x0050_0513, ADDI).unwrap_err();
        assert!(message.contains("00500513") && message.contains(ADDI));
        let message = line_of("addi", 0x0050_0593, ADDI).unwrap_err();
        assert!(message.contains("another word"));
    }

    /// objdump and the reference agree wherever a column is compared.
    #[test]
    fn agrees_with_the_reference() {
        let Some(list) = unless_absent("agrees_with_the_reference", listing()) else {
            return;
        };
        let differing: Vec<&str> = list
            .lines()
            .filter(|line| !holds(line.as_bytes()))
            .collect();
        assert!(differing.is_empty(), "{differing:#?}");
        assert_eq!(list.len(), formwords::all().len() * STRIDE);
    }
}
