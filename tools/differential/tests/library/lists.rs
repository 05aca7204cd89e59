//! Lists of segment calls against one long call, an execution and an index.

use differential::{known_word, live_word, program, Rng, Rom};
use magnetar_cpu::{execute, padding, records, segment, start};
use magnetar_cpu::{Cursor, LastWriterIndex, RECORD_WORDS};

const LISTS: u64 = 500;
const MOST_CALLS: usize = 9;
const LONGEST: usize = 100;
const SEED: u64 = 0x4c49_5354_5300_0000;

/// A ROM, every other time one that is unlikely to halt, and input.
fn machine(rng: &mut Rng) -> (Rom, Vec<u64>) {
    let words = [known_word, live_word][rng.below(2)];
    let length = 1 + rng.below(30);
    let rom = Rom::of(&program(length, rng, words));
    let input = (0..rng.below(300)).map(|_| rng.doubleword()).collect();
    (rom, input)
}

/// The log and the last cursor of one segment call from a fresh cursor.
fn one_call(rom: &Rom, input: &[u64], length: usize) -> (Vec<u64>, Cursor) {
    let mut cursor = start(input);
    let mut records = vec![0; RECORD_WORDS * length];
    let answer = segment(&rom.rows, &mut cursor, length as u64, &mut records);
    assert_eq!(answer, Ok(()));
    (records, cursor)
}

/// The same for a list of calls, some of them refused.
fn list_of_calls(rom: &Rom, input: &[u64], rng: &mut Rng) -> (Vec<u64>, Cursor) {
    let mut cursor = start(input);
    let mut log = Vec::new();
    for _ in 0..1 + rng.below(MOST_CALLS) {
        let length = rng.below(LONGEST);
        let missing = [0, 0, 0, 1][rng.below(4)];
        let mut records = vec![0; (RECORD_WORDS * length).saturating_sub(missing)];
        if segment(&rom.rows, &mut cursor, length as u64, &mut records).is_ok() {
            log.extend(&records);
        }
    }
    (log, cursor)
}

#[test]
fn a_list_of_segment_calls_is_one_call() {
    for number in 0..LISTS {
        let rng = &mut Rng::new(SEED + number);
        let (rom, input) = machine(rng);
        let (log, cursor) = list_of_calls(&rom, &input, rng);
        let cycles = log.len() / RECORD_WORDS;
        let (whole, last) = one_call(&rom, &input, cycles);
        assert!(whole == log, "list {number}");
        assert!(last.image() == cursor.image(), "list {number}");
        let (longer, _) = one_call(&rom, &input, cycles + 1 + rng.below(LONGEST));
        assert!(longer.starts_with(&log), "list {number}");
    }
}

/// As many live cycles in one segment, and then padding.
#[test]
fn an_execution_is_a_segment_and_padding() {
    let mut halted = 0;
    for number in 0..LISTS {
        let rng = &mut Rng::new(SEED + LISTS + number);
        let (rom, input) = machine(rng);
        let max_cycles = rng.below(LONGEST) as u64;
        let mut whole = vec![0; RECORD_WORDS * max_cycles.next_power_of_two() as usize];
        let execution = execute(&rom.rows, &input, max_cycles, &mut whole).expect("accepted");
        let (mut log, mut cursor) = one_call(&rom, &input, execution.live_count as usize);
        let mut rest = vec![0; RECORD_WORDS * execution.record_count - log.len()];
        let left = (rest.len() / RECORD_WORDS) as u64;
        let answer = padding(&rom.rows, &mut cursor, left, &mut rest);
        assert_eq!(answer, Ok(()));
        log.extend(rest);
        assert!(whole.starts_with(&log), "execution {number}");
        let is_same = cursor.image() == execution.cursor.image();
        assert!(is_same, "execution {number}");
        halted += u64::from(cursor.is_halted());
    }
    assert!((50..LISTS - 50).contains(&halted), "{halted} halted");
}

/// Also if it is made in two parts. RAM that no store wrote holds the input.
#[test]
fn an_index_rebuilds_the_cursor() {
    for number in 0..LISTS {
        let rng = &mut Rng::new(SEED + 2 * LISTS + number);
        let (rom, input) = machine(rng);
        let (log, cursor) = list_of_calls(&rom, &input, rng);
        let first = rng.below(log.len() / RECORD_WORDS + 1);
        let (before, segment) = log.split_at(RECORD_WORDS * first);
        let mut index = LastWriterIndex::of(before).expect("accepted");
        assert_eq!(index.add(segment), Ok(()));
        assert_eq!(LastWriterIndex::of(&log), Ok(index.clone()));
        let latest = |at: u64| records(&log).nth(at as usize).expect("a record");
        for (x, &found) in cursor.regs().iter().enumerate().skip(1) {
            let wanted = index.register(x).map_or(0, |at| latest(at).rd_val());
            assert_eq!(found, wanted, "list {number}, register {x}");
        }
        for (w, &found) in cursor.ram().iter().enumerate() {
            let stored = index.ram(w).map(|at| latest(at).ram_new());
            let wanted = stored.unwrap_or(*input.get(w).unwrap_or(&0));
            assert_eq!(found, wanted, "list {number}, RAM word {w}");
        }
    }
}
