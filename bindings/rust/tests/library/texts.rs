//! Records and cursors as text.

use crate::{with, ADDI, ECALL};
use magnetar_cpu::{execute, records, segment, Cursor, Stop, RECORD_WORDS};

/// The rows of the rule that ships: it has no register shift.
fn tariff() -> Vec<u64> {
    let bytes = include_bytes!("../../../../examples/tariff.bin");
    let words = bytes.chunks_exact(4);
    let word = |bytes: &[u8]| u32::from_le_bytes(bytes.try_into().expect("four bytes"));
    words.map(|bytes| word(bytes).into()).collect()
}

#[test]
fn the_rule_that_ships() {
    let mut buffer = [0; 64 * RECORD_WORDS];
    let execution = execute(&tariff(), &[1200, 1350], 64, &mut buffer).expect("accepted");
    assert_eq!(execution.stop, Stop::Ecall);
    let texts: Vec<String> = execution
        .records(&buffer)
        .map(|record| record.to_string())
        .collect();
    assert_eq!(texts.len(), 16);
    let load = "row 0 -> 1: register 5 = 1200 (rd_old 0); RAM word 0 is 1200; \
                flags we is_arith is_load ld_word";
    assert_eq!(texts[0], load);
    let branch = "row 4 -> 5: register 32 = 0 (rd_old 0); flags is_arith is_sub_op";
    assert_eq!(texts[4], branch);
    let shift = "row 8 -> 9: register 9 = 400 (rd_old 50); flags we is_shift";
    assert_eq!(texts[8], shift);
    let halt = "row 12 -> 12: register 32 = 4400 (rd_old 0); flags halted_latch";
    assert_eq!(texts[12], halt);
    let padding = "row 12 -> 12: register 32 = 4400 (rd_old 4400); flags halted_latch";
    assert_eq!(texts[13..], [padding; 3]);
    let cursor = execution.cursor;
    assert_eq!(
        cursor.to_string(),
        "row 12, cycles 13, halted with output 4400"
    );
    let fields = "Cursor { micro_pc: 12, cycles: 13, halted: 1, output: 4400, next_fetch: 12, \
                  regs: {5: 1200, 6: 1350, 7: 3200, 8: 100, 9: 400, 10: 4400, 32: 4400}, \
                  ram: {0: 1200, 1: 1350} }";
    assert_eq!(format!("{cursor:?}"), fields);
}

#[test]
fn what_readme_says_that_it_prints() {
    let mut buffer = [0; 8 * RECORD_WORDS];
    let rows = [ADDI, ECALL].map(u64::from);
    let execution = execute(&rows, &[], 8, &mut buffer).expect("accepted");
    let (stop, output) = (execution.stop, execution.cursor.output());
    let mut text = format!("```text\nstopped at {stop} with output {output}\n");
    for record in execution.records(&buffer) {
        text += &format!("{record}\n");
    }
    assert!(include_str!("../../README.md").contains(&(text + "```\n")));
}

/// sb x5, 3(x0) over other bytes, and a jump without a link, which has no flag.
#[test]
fn a_store_and_a_jump() {
    let rows = [0x0050_01a3, 0x0040_006f, ADDI.into()];
    let mut cursor = Cursor::new(with(&[(5, 0x112), (Cursor::RAM.start, 0x4400_0000)]));
    let mut buffer = [0; 2 * RECORD_WORDS];
    assert_eq!(segment(&rows, &mut cursor, 2, &mut buffer), Ok(()));
    let texts = records(&buffer).map(|record| record.to_string());
    let store = "row 0 -> 1: register 32 = 0 (rd_old 0); \
                 RAM word 0 = 301989888 (ram_old 1140850688); flags is_store";
    let jump = "row 1 -> 2: register 32 = 0 (rd_old 0); flags none";
    assert_eq!(texts.collect::<Vec<_>>(), [store, jump]);
    assert_eq!(cursor.to_string(), "row 2, cycles 2, running");
}
