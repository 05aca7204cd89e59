//! Runs that are accepted: the edges that 01 names, every count of cycles near a
//! power of two, every instruction form, and numbers of every length.

use super::of_calls;
use crate::answer::Run;
use crate::asm::{addi, branch, jal, ld, load, op, op_imm, store};
use crate::forms::{Form, FORMS};
use crate::formwords::operands;
use crate::interp::{straight, VALUES};
use crate::words::ECALL;

/// jal x0,0
const LOOP: u32 = 0x0000_006f;
/// x1 and x2 of the programs with one word of a form.
const OPERANDS: [u64; 2] = [0x8070_6050_4030_2013, 0x0000_0000_0000_0025];

pub fn runs() -> Vec<Run> {
    let mut runs: Vec<Run> = [8, 0, 1, 2, 3, 256].map(example).into();
    runs.extend(looped());
    runs.extend(named());
    runs.extend(VALUES.map(output));
    runs.extend(decimals());
    runs.extend(FORMS.iter().map(formed));
    runs
}

fn run(max_cycles: u32, input: &[u64], program: &[u32]) -> Run {
    Run {
        max_cycles,
        input: input.to_vec(),
        program: program.to_vec(),
    }
}

/// The run that 01 gives as its example; it halts in its second cycle.
fn example(max_cycles: u32) -> Run {
    run(max_cycles, &[], &[addi([10, 0], 5), ECALL])
}

/// A machine that never halts: each count up to 9, then the neighbours of
/// powers of two, which are padded most and least.
fn looped() -> Vec<Run> {
    let counts = (0..10).chain([16, 17, 33, 64, 127, 128, 129, 255, 256]);
    let mut runs: Vec<Run> = counts.map(|count| run(count, &[], &[LOOP])).collect();
    // Padding gives x5 or x1, that of the next row, the output: 0 while the machine is live.
    runs.extend([5, 6].map(|count| run(count, &[], &[addi([1, 1], 1), jal(5, -4)])));
    runs
}

/// M2 to M8 and M10 of 01; the first run is M1 and the second M9.
fn named() -> Vec<Run> {
    let jumps = |word| run(4, &[], &[addi([1, 1], 1), word]);
    vec![
        run(2, &[], &[0x8000_00b7, ECALL]),
        run(2, &[0x1122_3344_5566_7788], &[load(5, [1, 0], 7), ECALL]),
        run(
            4,
            &[0, 0xabcd],
            &[ld([1, 0], 8), store(1, [1, 0], 7), ld([10, 0], 0), ECALL],
        ),
        run(
            9,
            &[1, 3],
            &[ld([1, 0], 0), ld([2, 0], 8), op(0, 1, [3, 1, 2]), ECALL],
        ),
        jumps(branch(0, [0, 0], -16)),
        jumps(branch(0, [0, 0], -2)),
        run(
            3,
            &[1 << 63],
            &[ld([1, 0], 0), op_imm(5, [10, 1], 0x400 + 32), ECALL],
        ),
        run(
            5,
            &[],
            &[addi([2, 2], 1), addi([2, 2], 1), jal(1, 4), ECALL],
        ),
    ]
}

fn output(value: u64) -> Run {
    run(2, &[value], &[ld([10, 0], 0), ECALL])
}

/// The shortest and the longest number of each count of decimal digits.
fn decimals() -> Vec<Run> {
    let shortest: Vec<u64> = (0..20).map(|digits| 10u64.pow(digits)).collect();
    let longest: Vec<u64> = shortest.iter().map(|number| number - 1).collect();
    [shortest, longest]
        .map(|values| of_calls(&straight(&values, [])))
        .into()
}

/// One word of the form, on two registers that the input fills.
fn formed(form: &Form) -> Run {
    let word = form.base | operands(form.format, 8, [10, 1, 2]);
    of_calls(&straight(&OPERANDS, [word]))
}
