//! What is in the list of traces, and what random inputs are made of.

use super::{listing, random};
use crate::answer::{answer, Run, MAX_TRACE_CYCLES, MOST_BYTES};
use crate::forms::{Form, FORMS};
use crate::formwords::operands;
use crate::traceline::TRACES;
use magnetar_reference::interp::execute;
use rng::Rng;
use std::collections::HashSet;
use std::sync::LazyLock;

const MOST_LIST: usize = 700_000;
/// No input is longer.
const LONGEST: usize = 4200;
/// Those of `tools/compare-trace`.
const SEED: u64 = 1;
const INPUTS: usize = 2000;

static LIST: LazyLock<String> = LazyLock::new(listing);

/// The inputs of the list, by its text.
static LISTED: LazyLock<Vec<Vec<u8>>> = LazyLock::new(|| {
    let lines = LIST.lines().filter_map(|line| line.strip_prefix("i "));
    let byte = |pair: &[u8]| {
        let text = std::str::from_utf8(pair).unwrap();
        u8::from_str_radix(text, 16).unwrap()
    };
    lines
        .map(|line| line.as_bytes().chunks(2).map(byte).collect())
        .collect()
});

static RANDOM: LazyLock<Vec<Vec<u8>>> = LazyLock::new(|| {
    let mut rng = Rng::new(SEED);
    (0..INPUTS).map(|_| random(&mut rng)).collect()
});

/// The runs that are accepted.
fn accepted(inputs: &[Vec<u8>]) -> impl Iterator<Item = Run> + '_ {
    let runs = inputs.iter().filter_map(|input| Run::read(input));
    runs.filter(|run| !run.program.is_empty())
}

/// The words that were executed.
fn executed(run: &Run) -> Vec<u32> {
    let trace = execute(&run.program, &run.input, run.max_cycles as usize);
    let live = trace.records.iter().take(trace.final_state.cycles);
    live.map(|record| trace.program.rows[record.micro_pc].row.raw)
        .collect()
}

/// The numbers of the first line of each accepted run.
fn heads(inputs: &[Vec<u8>]) -> Vec<[u64; 3]> {
    let head = |run: Run| {
        let text = String::from_utf8(answer(&run.bytes())).unwrap();
        let numbers = text.lines().next().unwrap().split(',');
        let numbers: Vec<u64> = numbers.map(|number| number.parse().unwrap()).collect();
        numbers.try_into().unwrap()
    };
    accepted(inputs).map(head).collect()
}

fn count(inputs: &[Vec<u8>], text: &[u8]) -> usize {
    let right = |input: &&Vec<u8>| answer(input) == text;
    inputs.iter().filter(right).count()
}

fn header(input: &[u8], place: usize) -> Option<u64> {
    let bytes = input.get(4 * place..4 * place + 4)?;
    Some(u32::from_le_bytes(bytes.try_into().unwrap()).into())
}

/// The forms whose words are among these.
fn forms(words: &HashSet<u32>) -> Vec<&'static str> {
    let has = |form: &&Form| {
        let operand_bits = operands(form.format, -1, [31; 3]);
        words.iter().any(|word| word & !operand_bits == form.base)
    };
    let found = FORMS.iter().filter(has);
    found.map(|form| form.mnemonic).collect()
}

#[test]
fn the_list_begins_with_01s_example_and_is_right() {
    let example = "i 08000000000000001305500073000000\no 2,2,5\no 0,0,0,5,";
    assert!(LIST.starts_with(example));
    assert_eq!(TRACES.wrong_lines(LIST.as_bytes()), []);
    assert_eq!(*LIST, listing());
}

#[test]
fn the_list_is_not_too_long_and_has_no_case_twice() {
    assert!(LIST.len() <= MOST_LIST, "{}", LIST.len());
    let different: HashSet<&Vec<u8>> = LISTED.iter().collect();
    assert_eq!(different.len(), LISTED.len());
    assert!((280..=340).contains(&LISTED.len()), "{}", LISTED.len());
    assert!(LISTED.iter().all(|input| input.len() <= LONGEST));
    assert!(RANDOM.iter().all(|input| input.len() <= LONGEST));
}

#[test]
fn all_sorts_of_answers() {
    for (inputs, few) in [(&LISTED, 10), (&RANDOM, 50)] {
        let refused = [&b"refused,0\n"[..], b"refused,1\n"].map(|text| count(inputs, text));
        assert!(refused.into_iter().all(|count| count >= few), "{refused:?}");
        assert!(accepted(inputs).count() > inputs.len() / 2);
    }
}

#[test]
fn every_form_is_executed() {
    for inputs in [&LISTED, &RANDOM] {
        let words = accepted(inputs).flat_map(|run| executed(&run)).collect();
        let all: Vec<&str> = FORMS.iter().map(|form| form.mnemonic).collect();
        assert_eq!(forms(&words), all);
    }
}

#[test]
fn live_counts_and_padding() {
    for inputs in [&LISTED, &RANDOM] {
        let heads = heads(inputs);
        let live: HashSet<u64> = heads.iter().map(|head| head[0]).collect();
        for count in [0, 1, 2, 3, 4, 5, 127, 128, 129, 255, 256] {
            assert!(live.contains(&count), "{count}");
        }
        let records: HashSet<u64> = heads.iter().map(|head| head[1]).collect();
        assert_eq!(records.len(), 9);
        let full = heads.iter().filter(|head| head[0] == head[1]).count();
        assert!(full > 10 && heads.len() - full > 10);
    }
}

/// Machines that halt before the last cycle, in it, and not at all.
#[test]
fn endings() {
    for inputs in [&LISTED, &RANDOM] {
        let mut found = HashSet::new();
        for run in accepted(inputs) {
            let most = run.max_cycles as usize;
            let last = execute(&run.program, &run.input, most).final_state;
            found.insert((last.halted, last.cycles == most));
        }
        assert_eq!(found.len(), 3);
    }
}

#[test]
fn numbers_of_every_length_are_printed() {
    let printed = LIST.lines().filter_map(|line| line.strip_prefix("o "));
    let lengths: HashSet<usize> = printed
        .flat_map(|line| line.split(',').map(str::len))
        .collect();
    assert!((1..=20).all(|length| lengths.contains(&length)));
}

#[test]
fn the_bounds_of_what_is_accepted() {
    for inputs in [&LISTED, &RANDOM] {
        let any = |met: fn(&Run) -> bool| accepted(inputs).any(|run| met(&run));
        assert!(any(|run| run.bytes().len() == MOST_BYTES));
        assert!(any(|run| run.max_cycles == MAX_TRACE_CYCLES));
        assert!(any(|run| run.max_cycles == 0));
        for count in [0, 1, 256, 257, 510] {
            let counted = |run: Run| run.input.len() == count;
            assert!(accepted(inputs).any(counted), "{count}");
        }
    }
}

/// Each reason, where no other is there too.
#[test]
fn the_reasons_for_refused_0() {
    let whole =
        |input: &[u8]| input.len().is_multiple_of(4) && (8..=MOST_BYTES).contains(&input.len());
    let few = |input: &[u8]| header(input, 0) <= Some(MAX_TRACE_CYCLES.into());
    let needed = |input: &[u8]| 8 * (1 + header(input, 1).unwrap_or(0));
    let enough = |input: &[u8]| needed(input) <= input.len() as u64;
    // With a count that is doubled in 32 bits there would be enough.
    let wraps = |input: &[u8]| 4 * (needed(input) / 4 % (1 << 32)) <= input.len() as u64;
    for inputs in [&LISTED, &RANDOM] {
        let any = |met: &dyn Fn(&[u8]) -> bool| inputs.iter().any(|input| met(input));
        for rest in 1..4 {
            assert!(any(&|input| input.len() % 4 == rest && few(input)));
        }
        assert!([0, 4]
            .iter()
            .all(|&short| any(&|input| input.len() == short)));
        let long = |input: &[u8]| input.len() == MOST_BYTES + 4 && few(input) && enough(input);
        assert!(any(&long));
        assert!(any(&|input| whole(input) && !few(input) && enough(input)));
        assert!(any(&|input| whole(input) && few(input) && !enough(input)));
        let wrapped = |input: &[u8]| whole(input) && few(input) && !enough(input) && wraps(input);
        assert!(any(&wrapped));
        let next = u64::from(MAX_TRACE_CYCLES) + 1;
        assert!(any(&|input| header(input, 0) == Some(next)));
        assert!(any(&|input| needed(input) == input.len() as u64 + 4));
    }
}
