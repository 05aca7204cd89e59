//! Words that go straight on.

use super::{shown, Difference, Halted, Qemu, Ram, Register, Says, CONTENT, SHIFT};
use crate::asm::{addi, auipc, ld, load, lui, op, op32, op_imm, op_imm32, store};
use crate::words::{EBREAK, ECALL};

/// `fence iorw,iorw`, `fence.tso` and `pause`.
const FENCES: [u32; 3] = [0x0ff0_000f, 0x8330_000f, 0x0100_000f];
/// The bit that tells srai from srli.
const ARITHMETIC: i64 = 0x400;

pub fn differences() -> Vec<Difference> {
    let groups = [
        shifts(),
        words(),
        loads(),
        stores(),
        addresses(),
        uppers(),
        x0(),
        halts(),
    ];
    groups.into_iter().flatten().collect()
}

/// srai by 32 and more, which keeps no sign in the reference.
fn shifts() -> Vec<Difference> {
    let by = |amount| {
        let word = op_imm(5, [1, 1], ARITHMETIC | amount);
        shown(Register(1), Qemu, &[word], &[(1, 1 << 63)], &[])
    };
    vec![by(32), by(63)]
}

/// The 32-bit forms: addiw, slliw, srliw, sraiw, addw, subw, sllw, srlw and sraw.
fn words() -> Vec<Difference> {
    let immediate = |funct3, imm, x1| {
        let word = op_imm32(funct3, [1, 1], imm);
        shown(Register(1), Qemu, &[word], &[(1, x1)], &[])
    };
    let register = |funct7, funct3| {
        let word = op32(funct7, funct3, [1, 1, 1]);
        shown(Register(1), Qemu, &[word], &[(1, 1)], &[])
    };
    vec![
        immediate(0, 0, 1 << 31),
        immediate(1, 1, 1 << 31),
        immediate(5, 1, 1 << 32),
        immediate(5, ARITHMETIC | 1, 1 << 31),
        register(0, 0),
        register(0x20, 0),
        register(0, 1),
        register(0, 5),
        register(0x20, 5),
    ]
}

fn loads() -> Vec<Difference> {
    let from = |funct3, address, word0| {
        let word = load(funct3, [1, 0], address);
        shown(Register(1), Qemu, &[word], &[], &[(0, word0)])
    };
    vec![
        // lb and lh: the sign, and of lh the byte of the next word
        from(0, 0, 0x80),
        from(1, 0, 0x8000),
        from(1, 7, CONTENT),
        // lw and lwu: the sign, the upper half, and the offset
        from(2, 0, 1 << 31),
        from(2, 0, 1 << 32),
        from(2, 4, 1),
        from(6, 0, 1 << 32),
        from(6, 4, 1),
        // lhu at 7, ld between two words
        from(5, 7, CONTENT),
        from(3, 1, CONTENT),
        from(3, 7, CONTENT),
    ]
}

/// What the next word gets.
fn stores() -> Vec<Difference> {
    let over = |funct3, address, x1| {
        let word = store(funct3, [1, 0], address);
        shown(Ram(1), Qemu, &[word], &[(1, x1)], &[])
    };
    let halves = [over(1, 7, 0xabcd)];
    let words = [5, 6, 7].map(|address| over(2, address, 0x5566_7788));
    let doublewords = [1, 2, 3, 4, 5, 6, 7].map(|address| over(3, address, CONTENT));
    halves.into_iter().chain(words).chain(doublewords).collect()
}

/// The reference has 2,048 bytes, which stand for all addresses. In qemu there are
/// zeros behind them.
fn addresses() -> Vec<Difference> {
    let end = [(1, 0x800)];
    vec![
        shown(Register(2), Qemu, &[ld([2, 1], 0)], &end, &[(0, 5)]),
        shown(Ram(0), Qemu, &[store(3, [1, 1], 0)], &end, &[]),
    ]
}

fn uppers() -> Vec<Difference> {
    vec![
        shown(Register(1), Qemu, &[lui(1, 0x8_0000)], &[], &[]),
        // pc is 0, and the immediate is sign-extended.
        shown(
            Register(1),
            Says(0xffff_ffff_8000_0000),
            &[auipc(1, 0x8_0000)],
            &[],
            &[],
        ),
        // pc is 4, because the shift is one instruction.
        shown(Register(1), Says(4), &[SHIFT, auipc(1, 0)], &[], &[]),
    ]
}

/// Cells 0 and 32 are none of the manual's; where it has x0, that is 0.
fn x0() -> Vec<Difference> {
    let by_x0 = |funct7, funct3| {
        let word = op(funct7, funct3, [1, 1, 0]);
        shown(Register(1), Qemu, &[word], &[(1, 2)], &[])
    };
    let operands = [(1, 1), (2, 3)];
    let mut first_stage = shown(Register(0), Says(0), &[SHIFT], &operands, &[]);
    first_stage.case.cycles = 1;
    vec![
        shown(Register(32), Says(0), &[addi([0, 0], 5)], &[], &[]),
        first_stage,
        shown(Register(0), Says(0), &[SHIFT], &operands, &[]),
        shown(Register(4), Qemu, &[SHIFT, addi([4, 0], 0)], &operands, &[]),
        by_x0(0, 1),
        by_x0(0, 5),
        by_x0(0x20, 5),
    ]
}

/// The manual has no halt: fences go on, ecall and ebreak go to the environment.
fn halts() -> Vec<Difference> {
    let fences = FENCES.map(|word| shown(Halted, Qemu, &[word], &[], &[]));
    let calls = [ECALL, EBREAK].map(|word| shown(Halted, Says(0), &[word], &[], &[]));
    fences.into_iter().chain(calls).collect()
}
