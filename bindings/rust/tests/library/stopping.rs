//! Why a run stopped.

use crate::{with, ADDI, ECALL, STAY};
use magnetar_cpu::{execute, expand, segment, start};
use magnetar_cpu::{Cursor, Stop, RECORD_WORDS, ROWS_PER_WORD};

/// Words of every opcode and funct3, with several others of their bits set.
fn words() -> impl Iterator<Item = u32> {
    let others = [
        0,
        1 << 7,
        1 << 15,
        1 << 20,
        2 << 20,
        1 << 25,
        1 << 31,
        0xffff_8f80,
    ];
    (0..1 << 10).flat_map(move |bits: u32| {
        let (opcode, funct3) = (bits & 0x7f, bits >> 7);
        others.map(|other| opcode | funct3 << 12 | other)
    })
}

/// The cursor and the rows after one cycle of a program of one word.
fn after_one_cycle(word: u32) -> (Cursor, Vec<u64>) {
    let mut rows = vec![0; ROWS_PER_WORD];
    let count = expand(&[word], &mut rows, &mut [0]).expect("accepted");
    rows.truncate(count);
    let mut cursor = start(&[]);
    let answer = segment(&rows, &mut cursor, 1, &mut [0; RECORD_WORDS]);
    assert_eq!(answer, Ok(()));
    (cursor, rows)
}

/// The library says which words halt, the word alone says why. A machine that was
/// halted by hand has no reason at a word that does not halt.
#[test]
fn every_opcode() {
    let mut halts = [0; 4];
    for word in words() {
        let (cursor, rows) = after_one_cycle(word);
        let by_hand = Cursor::new(with(&[(Cursor::HALTED, 1)])).stop(&rows);
        assert_eq!(by_hand.is_some(), cursor.is_halted(), "{word:#010x}");
        let stop = cursor.stop(&rows).expect("a reason");
        assert_eq!(stop != Stop::Limit, cursor.is_halted(), "{word:#010x}");
        assert_eq!(stop == Stop::Ecall, word == 0x0000_0073, "{word:#010x}");
        assert_eq!(stop == Stop::Ebreak, word == 0x0010_0073, "{word:#010x}");
        assert_eq!(stop == Stop::Fence, word & 0x7f == 0x0f, "{word:#010x}");
        match stop {
            Stop::Ecall => halts[0] += 1,
            Stop::Ebreak => halts[1] += 1,
            Stop::Fence => halts[2] += 1,
            Stop::Undefined(shown) => {
                assert_eq!(shown, word);
                halts[3] += 1;
            }
            _ => {}
        }
    }
    // 12 opcodes are known and 0x73 in two words; one of the 12 is fence.
    assert_eq!(halts, [1, 1, 64, (128 - 12) * 64 - 2]);
}

#[test]
fn the_stop_of_an_execution() {
    let stop = |program: &[u32], max_cycles| {
        let rows: Vec<u64> = program.iter().map(|&word| word.into()).collect();
        let execution = execute(&rows, &[], max_cycles, &mut [0; 4 * RECORD_WORDS]);
        execution.expect("accepted").stop
    };
    assert_eq!(stop(&[ADDI, ECALL], 0), Stop::Limit);
    assert_eq!(stop(&[ADDI, ECALL], 1), Stop::Limit);
    assert_eq!(stop(&[ADDI, ECALL], 2), Stop::Ecall);
    assert_eq!(stop(&[ADDI, 0x0010_0073], 4), Stop::Ebreak);
    assert_eq!(stop(&[ADDI, ADDI, 0x0ff0_000f], 4), Stop::Fence);
    assert_eq!(stop(&[0], 3), Stop::Undefined(0));
    assert_eq!(stop(&[STAY], 3), Stop::Limit);
}

/// Words that no call leaves with these rows.
#[test]
fn rows_of_another_program() {
    let rows = [ADDI, ECALL].map(u64::from);
    for (micro_pc, stop) in [
        (0, None),
        (1, Some(Stop::Ecall)),
        (2, None),
        (u64::MAX, None),
    ] {
        let halted = with(&[(Cursor::HALTED, 2), (Cursor::MICRO_PC, micro_pc)]);
        assert_eq!(Cursor::new(halted).stop(&rows), stop);
        let live = with(&[(Cursor::MICRO_PC, micro_pc)]);
        assert_eq!(Cursor::new(live).stop(&rows), Some(Stop::Limit));
    }
}
