//! The fixed set of inputs of the program `trace` whose answers by the reference
//! are listed, and random inputs.

#[cfg(test)]
mod claims;
mod edges;
mod headers;
mod random;

use crate::answer::{Run, MAX_TRACE_CYCLES};
use crate::calllist::CallList;
use crate::interp::{bounds, system};
use crate::traceline::case;
pub use random::any as random;
use rng::Rng;

/// Any number would do; it only has to stay the same.
const SEED: u64 = 0x5452_4143_4500_0001;
const RANDOM_CASES: usize = 140;
/// Longer random cases are mostly passed over, which keeps the list short.
const LONG_CASE: usize = 3000;
/// Of so many of them one is kept.
const RARITY: usize = 16;

pub fn listing() -> String {
    let mut cases: Vec<String> = fixed().iter().map(|input| case(input)).collect();
    cases.extend(random_cases());
    cases.concat()
}

/// 01's example is the first.
fn fixed() -> Vec<Vec<u8>> {
    let lists = [system::lists(), bounds::lists()].into_iter().flatten();
    let runs = edges::runs().into_iter();
    let runs = runs.chain(lists.map(|list| of_calls(&list)));
    let mut inputs: Vec<Vec<u8>> = runs.map(|run| run.bytes()).collect();
    inputs.extend(headers::inputs());
    inputs
}

/// As many cycles as the calls have together, if these are not too many.
fn of_calls(list: &CallList) -> Run {
    let cycles: u64 = list.calls.iter().map(|call| call.length).sum();
    Run {
        max_cycles: cycles.min(MAX_TRACE_CYCLES.into()) as u32,
        input: list.input.clone(),
        program: list.program.clone(),
    }
}

fn random_cases() -> Vec<String> {
    let mut rng = Rng::new(SEED);
    let mut cases = Vec::new();
    while cases.len() < RANDOM_CASES {
        let case = case(&random(&mut rng));
        if case.len() <= LONG_CASE || rng.below(RARITY) == 0 {
            cases.push(case);
        }
    }
    cases
}
