//! Random programs, inputs and calls.

use crate::calllist::CallKind::{Padding, Segment};
use crate::calllist::{Call, CallList, MAX_TOTAL_CYCLES, RECORD};
use crate::mixed::program_and_input;
use rng::Rng;

/// Any number would do; it only has to stay the same.
const SEED: u64 = 0x494e_5445_5250_0001;
const LISTS: usize = 110;
const MOST_CALLS: usize = 6;
const LONGEST_CALL: usize = 16;

pub fn lists() -> Vec<CallList> {
    let mut rng = Rng::new(SEED);
    (0..LISTS).map(|_| list(&mut rng)).collect()
}

fn list(rng: &mut Rng) -> CallList {
    let (program, input) = program_and_input(rng);
    CallList {
        program,
        input,
        calls: (0..1 + rng.below(MOST_CALLS)).map(|_| call(rng)).collect(),
    }
}

fn call(rng: &mut Rng) -> Call {
    let length = rng.below(1 + LONGEST_CALL) as u64;
    let kind = match rng.below(4) {
        0 => Padding,
        _ => Segment,
    };
    let full = RECORD * length;
    match rng.below(8) {
        0 => Call {
            kind,
            length: rng.doubleword() % (2 * MAX_TOTAL_CYCLES),
            room: full,
        },
        1 => Call {
            kind,
            length,
            room: full.saturating_sub(1 + rng.below(17) as u64),
        },
        2 => Call {
            kind,
            length,
            room: full + rng.below(40) as u64,
        },
        _ => Call {
            kind,
            length,
            room: full,
        },
    }
}
