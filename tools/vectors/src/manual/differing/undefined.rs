//! Encodings that RV64I does not define, and what the reference does with them.

use super::{after, shown, Difference, Halted, Ram, Register, Row, Undefined, CONTENT, NOP};
use crate::asm::{branch, jalr, load, op, op32, op_imm, op_imm32, store};

/// FENCE.I of Zifencei, `csrrs x1,cycle,x0` of Zicsr, mret of the privileged part,
/// and the two words that the manual keeps for illegal instructions.
const SYSTEM: [u32; 5] = [0x0000_100f, 0xc000_20f3, 0x3020_0073, 0, u32::MAX];
/// Of the 32-bit forms.
const RESERVED: [u32; 5] = [2, 3, 4, 6, 7];
/// funct7 and funct3: mul, mulh, divu, rem, and and with the funct7 of sub.
const OTHER_FORMS: [(u32, u32); 5] = [(1, 0), (1, 1), (1, 5), (1, 6), (0x20, 7)];

pub fn differences() -> Vec<Difference> {
    let groups = [registers(), memory(), jumps(), system()];
    groups.into_iter().flatten().collect()
}

/// The destination is a source: that it is written shows, too.
fn registers() -> Vec<Difference> {
    let register = |word| shown(Register(2), Undefined, &[word], &[(1, 6), (2, 3)], &[]);
    let immediate = |word| shown(Register(1), Undefined, &[word], &[(1, 6)], &[]);
    let others = OTHER_FORMS.map(|(funct7, funct3)| register(op(funct7, funct3, [2, 1, 2])));
    // slli and slliw with a bit above their amount, and mulw
    let shifts = [op_imm(1, [1, 1], 0x81), op_imm32(1, [1, 1], 0x81)].map(immediate);
    let mulw = register(op32(1, 0, [2, 1, 2]));
    let words = RESERVED.map(|funct3| immediate(op_imm32(funct3, [1, 1], 5)));
    let register_words = RESERVED.map(|funct3| register(op32(0, funct3, [2, 1, 2])));
    let words = words.into_iter().chain(register_words);
    let others = others.into_iter().chain(shifts);
    let others = others.chain(words).chain([mulw]);
    others.chain(comparisons()).collect()
}

/// funct3 2, with -1 in x1 and -2 in x2: mulhsu compares x2 with x1, the 32-bit forms
/// x1 with the immediate, which is 5 and, of the register form, 0.
fn comparisons() -> [Difference; 3] {
    let before = [(1, u64::MAX), (2, u64::MAX - 1)];
    let words = [
        op(1, 2, [2, 2, 1]),
        op_imm32(2, [2, 1], 5),
        op32(0, 2, [2, 1, 2]),
    ];
    words.map(|word| shown(Register(2), Undefined, &[word], &before, &[]))
}

/// The load and the stores have 8 bytes.
fn memory() -> Vec<Difference> {
    let load = load(7, [1, 0], 4);
    let load = shown(Register(1), Undefined, &[load], &[], &[(0, CONTENT)]);
    let stores = [4, 5, 6, 7].map(|funct3| {
        let word = store(funct3, [1, 0], 0);
        shown(Ram(0), Undefined, &[word], &[(1, CONTENT)], &[])
    });
    [load].into_iter().chain(stores).collect()
}

/// The branches are not taken, or the next row would be 0; the jumps go to row 1.
fn jumps() -> Vec<Difference> {
    let branches = [2, 3].map(|funct3| branch(funct3, [0, 0], 8));
    let jumps = [1, 7].map(|funct3| jalr([0, 0], 4) | funct3 << 12);
    let words = branches.into_iter().chain(jumps);
    let next = |word| after(1, Row, Undefined, &[word, NOP]);
    words.map(next).collect()
}

fn system() -> Vec<Difference> {
    let halts = |word| shown(Halted, Undefined, &[word], &[], &[]);
    SYSTEM.map(halts).into()
}
