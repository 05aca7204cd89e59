//! Where jumps and branches go, and links. In the manual the program's words lie at
//! address 0, 4, 8 and so on; what it says is written here.

use super::{after, shown, Difference, Register, Row, Says, NONE, NOP, SHIFT};
use crate::asm::{branch, jal, jalr};
use crate::words::ECALL;

pub fn differences() -> Vec<Difference> {
    let forms: [fn(i64) -> u32; 2] = [|imm| jal(0, imm), |imm| branch(0, [0, 0], imm)];
    let targets = forms.into_iter().flat_map(targets);
    targets
        .chain(registers())
        .chain(links())
        .chain([end()])
        .collect()
}

/// Of jal and of a branch.
fn targets(jump: fn(i64) -> u32) -> Vec<Difference> {
    vec![
        // Forward over a shift, to the word at 8, which is the last row.
        after(1, Row, Says(7), &[jump(8), SHIFT, ECALL]),
        // Back over a shift, to the word at 0.
        after(7, Row, Says(0), &[SHIFT, jump(-4)]),
        // To the addresses 6 and 2, at which no word begins.
        after(1, Row, Says(NONE), &[jump(6), NOP]),
        after(2, Row, Says(NONE), &[NOP, jump(-2)]),
        // Below the program, to the address -12.
        after(2, Row, Says(NONE), &[NOP, jump(-16)]),
        // Past the program, to the address 16.
        after(1, Row, Says(NONE), &[jump(16), NOP]),
    ]
}

/// jalr, whose target is an address: rs1 + immediate with bit 0 cleared.
fn registers() -> Vec<Difference> {
    vec![
        after(1, Row, Says(7), &[jalr([0, 0], 8), SHIFT, ECALL]),
        after(1, Row, Says(NONE), &[jalr([0, 0], 2)]),
        after(1, Row, Says(NONE), &[jalr([0, 0], 16), NOP]),
    ]
}

/// The link of the second word is 8, however many rows the first has.
fn links() -> [Difference; 2] {
    [jal(1, 0), jalr([1, 0], 0)].map(|jump| shown(Register(1), Says(8), &[SHIFT, jump], &[], &[]))
}

/// After the last word the manual goes on at the address behind it.
fn end() -> Difference {
    after(1, Row, Says(NONE), &[NOP])
}
