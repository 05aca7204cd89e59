//! Branches and jumps: conditions, targets, links.

use super::shifts::SHIFTS;
use super::{pairs, straight, VALUES};
use crate::asm::{addi, branch, jal, jalr, ld, op};
use crate::calllist::{segment, CallList};
use crate::words::ECALL;

/// Distances whose quarter is whole and such whose is not, to both sides.
const DISTANCES: [i64; 13] = [-2, -6, 2, 6, 0, 4, -4, 8, -8, -16, 62, -4096, 4094];
const FAR: [i64; 2] = [-0x10_0000, 0xf_fffe];
/// Where the jump stands in its program of seven rows.
const PLACES: [usize; 3] = [0, 2, 5];
/// Conditions that hold between x0 and x0.
const HOLDING: [u32; 3] = [0, 5, 7];

/// Base and immediate of jalr. Some sums wrap, both ways.
const SUMS: [(u64, i64); 15] = [
    (0, 0),
    (4, 4),
    (5, 0),
    (6, 1),
    (7, 0),
    (12, -4),
    (0, -4),
    (3, -2048),
    (12, 2047),
    (1 << 63, 0),
    ((1 << 63) - 1, 1),
    (1 << 32, 8),
    (u64::MAX, 1),
    (u64::MAX - 3, 11),
    (u64::MAX, -1),
];

pub fn lists() -> Vec<CallList> {
    let mut lists: Vec<CallList> = (0..8).map(conditions).collect();
    for (number, distance) in (0..).zip(DISTANCES) {
        let taken = branch(HOLDING[number % 3], [0, 0], distance);
        let jump = jal(link(number), distance);
        lists.extend(PLACES.map(|place| target(place, taken)));
        lists.extend(PLACES.map(|place| target(place, jump)));
    }
    for distance in FAR {
        lists.extend(PLACES.map(|place| target(place, jal(1, distance))));
    }
    lists.extend((0..).zip(SUMS).map(|(number, sum)| sums(number, sum)));
    for stage in 1..6 {
        let (form, distance) = (SHIFTS[stage % 3], 4 * (1 + stage as i64));
        lists.push(forth(form, stage, jal(0, distance)));
        lists.push(forth(form, stage, branch(1, [1, 2], distance)));
        lists.push(forth_by_register(form, stage));
        lists.push(back(form, stage));
    }
    lists
}

fn link(number: usize) -> u32 {
    [0, 1, 31][number % 3]
}

/// All pairs of values. A branch that is not taken is followed by an addition.
fn conditions(funct3: u32) -> CallList {
    let words = pairs(1).flat_map(|pair| [branch(funct3, pair, 8), addi([9, 9], 1)]);
    straight(&VALUES, words)
}

/// Additions to different registers, one of them replaced by the jump, which is
/// followed for some cycles.
fn target(place: usize, jump: u32) -> CallList {
    let mut program: Vec<u32> = (11..18).map(|d| addi([d, d], 1)).collect();
    program[place] = jump;
    CallList {
        program,
        input: Vec::new(),
        calls: vec![segment(place as u64 + 4)],
    }
}

/// The link is x0, the base itself, or another register.
fn sums(number: usize, (base, imm): (u64, i64)) -> CallList {
    let mut program = vec![ld([1, 0], 0), jalr([link(number), 1], imm)];
    program.extend((2..7).map(|d| addi([d, d], 1)));
    CallList {
        program,
        input: vec![base],
        calls: vec![segment(5)],
    }
}

/// After a shift, a jump forth into the middle of another one.
fn forth((funct7, funct3): (u32, u32), stage: usize, jump: u32) -> CallList {
    let mut list = straight(
        &[0xf0e1_d2c3_b4a5_9687, 43],
        [
            op(funct7, funct3, [3, 1, 2]),
            jump,
            op(funct7, funct3, [4, 1, 2]),
            addi([5, 0], 0),
        ],
    );
    // The rows that are jumped over.
    list.calls[0].length -= stage as u64;
    list
}

/// The same by jalr. The rows of two loads, a shift, a load and the jump come
/// before the shift that is jumped into.
fn forth_by_register((funct7, funct3): (u32, u32), stage: usize) -> CallList {
    let address = 4 * (2 + 6 + 2 + stage as u64);
    CallList {
        program: vec![
            ld([1, 0], 0),
            ld([2, 0], 8),
            op(funct7, funct3, [3, 1, 2]),
            ld([6, 7], 16),
            jalr([7, 6], 0),
            op(funct7, funct3, [4, 1, 2]),
            ECALL,
        ],
        input: vec![0xf0e1_d2c3_b4a5_9687, 43, address],
        calls: vec![segment(18 - stage as u64)],
    }
}

/// A jump back into the middle of the shift before it, over and over.
fn back((funct7, funct3): (u32, u32), stage: usize) -> CallList {
    CallList {
        program: vec![
            ld([1, 0], 0),
            ld([2, 0], 8),
            op(funct7, funct3, [3, 1, 2]),
            branch(0, [5, 5], 4 * (stage as i64 - 6)),
        ],
        input: vec![0x8f0e_1d2c_3b4a_5961, 3],
        calls: vec![segment(9), segment(7 - stage as u64)],
    }
}
