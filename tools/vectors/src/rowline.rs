//! The lines of an expansion list: for each program a line with its counts,
//! then one line for each row of its expansion, in fixed columns.

use crate::list::{is_compared, lines, ListKind};
use crate::listing::{raw_word, CLASS, FUNCT7, RAW, WIDTH};
use magnetar_reference::expand::{expand_program, RomRow, VirtualKind};
use std::ops::Range;

/// In the program line: the numbers of words and of rows.
pub const WORD_COUNT: Range<usize> = 9..13;
pub const ROW_COUNT: Range<usize> = 21..25;
/// In a row line these two take the place of class and funct7; the others are
/// those of a decoded word.
pub const KIND: Range<usize> = CLASS;
pub const OFFSET: Range<usize> = FUNCT7;

/// The lists of expanded programs.
pub const PROGRAMS: ListKind = ListKind {
    width: Some(WIDTH),
    begins: |line| line.starts_with(b"program:"),
    first_wrong,
    tries: is_compared,
    rarity: |_| 1,
};

/// The lines of a program, each with its line feed: the answer of the reference.
pub fn expansion(program: &[u32]) -> String {
    let expanded = expand_program(program);
    let starts = &expanded.inst_to_micro;
    let counts = format!(
        "program: {:04} words, {:04} rows",
        starts.len(),
        expanded.len
    );
    let rows = expanded
        .rows
        .iter()
        .enumerate()
        .map(|(index, inst)| row_line(&inst.row, distance(starts, index)));
    format!("{counts:<WIDTH$}\n") + &rows.collect::<String>()
}

fn row_line(row: &RomRow, distance: usize) -> String {
    format!(
        "{:08x} {:<7} {:02} {:02} {:02} {} +{distance} {:016x}\n",
        row.raw,
        kind_text(row.kind),
        row.rd,
        row.rs1,
        row.rs2,
        row.funct3,
        row.imm,
    )
}

fn kind_text(kind: VirtualKind) -> String {
    match kind {
        VirtualKind::ShiftStage { stage } => format!("Shift {stage}"),
        other => format!("{other:?}"),
    }
}

/// How far a row lies behind the first row of its instruction. The stage of a
/// shift says so, too; it is not asked, so that the two columns do not come
/// from one source.
fn distance(starts: &[usize], row: usize) -> usize {
    starts
        .iter()
        .filter_map(|&start| row.checked_sub(start))
        .min()
        .expect("the first instruction starts at row 0")
}

/// The rows are compared before the program line, whose counts can look wrong
/// because of a wrong row. A row that is missing counts as the line behind.
fn first_wrong(program: &[u8]) -> Option<usize> {
    let answer = expansion(&words(program));
    let right: Vec<&[u8]> = lines(answer.as_bytes()).collect();
    let kept: Vec<&[u8]> = lines(program).collect();
    (1..kept.len().max(right.len()))
        .chain([0])
        .find(|&line| kept.get(line) != right.get(line))
}

/// The words that the first rows of the instructions name. What is no word
/// becomes zero, which no comparison takes for the same.
fn words(program: &[u8]) -> Vec<u32> {
    lines(program)
        .skip(1)
        .filter(|row| &row[OFFSET] == b"+0")
        .map(|row| raw_word(&row[RAW]).unwrap_or(0))
        .collect()
}

#[cfg(test)]
mod tests {
    use super::*;
    use crate::listing::{IMM, RD, STRIDE};

    /// addi x10,x0,5; sll x3,x1,x2; ecall
    const PROGRAM: [u32; 3] = [0x0050_0513, 0x0020_91b3, 0x0000_0073];
    const LINES: [&str; 9] = [
        "program: 0003 words, 0008 rows                 ",
        "00500513 Alu     10 00 05 0 +0 0000000000000005",
        "002091b3 Shift 0 00 01 02 1 +0 0000000000000000",
        "002091b3 Shift 1 00 01 02 1 +1 0000000000000000",
        "002091b3 Shift 2 00 01 02 1 +2 0000000000000000",
        "002091b3 Shift 3 00 01 02 1 +3 0000000000000000",
        "002091b3 Shift 4 00 01 02 1 +4 0000000000000000",
        "002091b3 Shift 5 03 01 02 1 +5 0000000000000000",
        "00000073 System  00 10 00 0 +0 0000000000000000",
    ];

    #[test]
    fn the_example_program() {
        let text = expansion(&PROGRAM);
        assert_eq!(text.lines().collect::<Vec<_>>(), LINES);
        assert_eq!(text.len(), LINES.len() * STRIDE);
        assert_eq!(words(text.as_bytes()), PROGRAM);
        let (counts, row) = (LINES[0], LINES[7]);
        assert_eq!((&counts[WORD_COUNT], &counts[ROW_COUNT]), ("0003", "0008"));
        assert_eq!(
            (&row[KIND], &row[OFFSET], &row[RD]),
            ("Shift 5", "+5", "03")
        );
    }

    #[test]
    fn widest_columns_keep_the_width() {
        let text = expansion(&[0xffff_dfb3; 128]);
        assert!(text.lines().all(|line| line.len() == WIDTH));
        assert!(text.starts_with("program: 0128 words, 0768 rows "));
        assert!(text.ends_with("\nffffdfb3 Shift 5 31 31 31 5 +5 0000000000000000\n"));
        let load = expansion(&[0xffff_ff83]);
        assert!(load.ends_with("\nffffff83 Load    31 31 00 7 +0 ffffffffffffffff\n"));
        assert_eq!(&load[STRIDE..][IMM], "ffffffffffffffff");
    }

    #[test]
    fn distances_begin_anew_at_each_start() {
        let found: Vec<usize> = (0..9).map(|row| distance(&[0, 1, 7], row)).collect();
        assert_eq!(found, [0, 0, 1, 2, 3, 4, 5, 0, 1]);
    }

    #[test]
    fn the_first_wrong_line_is_found() {
        let text = expansion(&PROGRAM);
        let wrong = |bytes: &[u8]| first_wrong(bytes);
        let replaced = |from, to| wrong(text.replace(from, to).as_bytes());
        assert_eq!(wrong(text.as_bytes()), None);
        assert_eq!(replaced("0003 words", "0004 words"), Some(0));
        assert_eq!(replaced("Shift 2", "Shift 3"), Some(4));
        assert_eq!(replaced("1 +0", "1 +1"), Some(2));
        assert_eq!(replaced("00500513", "0050051g"), Some(1));
        assert_eq!(wrong(&text.as_bytes()[..8 * STRIDE]), Some(0));
        assert_eq!(wrong(&text.as_bytes()[..7 * STRIDE]), Some(7));
        assert_eq!(wrong((text.clone() + LINES[7] + "\n").as_bytes()), Some(9));
    }

    #[test]
    fn a_word_that_gives_the_same_columns_is_right() {
        let text = expansion(&PROGRAM).replace("00000073", "00000000");
        assert_eq!(first_wrong(text.as_bytes()), None);
        let text = text.replace("00500513", "00500593");
        assert_eq!(first_wrong(text.as_bytes()), Some(1));
    }
}
