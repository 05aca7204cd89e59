//! Words that halt the machine: those of the system opcode, fences, and words
//! of no instruction.

use crate::asm::addi;
use crate::calllist::{padding, segment, CallList};
use crate::words::{EBREAK, ECALL};

pub const HALTING: [u32; 15] = [
    ECALL,
    EBREAK,
    0x0ff0_000f, // fence iorw,iorw
    0x8330_000f, // fence.tso
    0x0000_100f, // fence.i
    0x3000_2573, // csrr x10,mstatus
    0x3055_9073, // csrw mtvec,x11
    0x1050_0073, // wfi
    0x3020_0073, // mret
    0x0000_0000,
    0xffff_ffff,
    0x0005_0505, // a compressed instruction and more
    0x00a5_250b, // an opcode that the manual leaves to others
    0x0205_302f, // amoadd.d
    0x0200_0053, // fadd.d
];

pub fn lists() -> Vec<CallList> {
    (0..).zip(HALTING).map(|(n, word)| halt(n, word)).collect()
}

/// The call in which the machine halts goes on into padding, or ends there and
/// the next goes on.
fn halt(number: i64, word: u32) -> CallList {
    let calls = match number % 3 {
        0 => vec![segment(4)],
        1 => vec![segment(2), segment(2)],
        _ => vec![segment(1), segment(2), padding(1)],
    };
    CallList {
        program: vec![addi([10, 0], 100 - 15 * number), word, addi([10, 0], 1)],
        input: vec![0x77],
        calls,
    }
}
