//! The last-writer index of a log. What the library answers at its limits is tested by
//! tools/c-boundary and, on random logs, by tools/differential.

use magnetar_cpu::{add_to_index, build_index, expand, segment, start};
use magnetar_cpu::{IndexRefusal, LastWriterIndex, Record};
use magnetar_cpu::{INDEX_PLACES, MAX_RECORDS, NONE, RECORD_WORDS};

/// A record that writes a register and, as a store, a RAM word. Its other words are of
/// no use to an index.
fn record(rd: u64, ram_addr: u64, is_store: bool) -> [u64; RECORD_WORDS] {
    let mut words = [u64::MAX; RECORD_WORDS];
    words[Record::RD] = rd;
    words[Record::RAM_ADDR] = ram_addr;
    if !is_store {
        words[Record::PACKED] ^= Record::IS_STORE;
    }
    words
}

/// An index that no record was entered into: each place holds another number.
fn filled() -> Vec<u64> {
    (1..=INDEX_PLACES as u64).map(|place| place << 32).collect()
}

/// These positions, from `before` on, at these places of an index.
fn entered(mut index: Vec<u64>, before: u64, written: &[(usize, u64)]) -> Vec<u64> {
    written
        .iter()
        .for_each(|&(place, at)| index[place] = before + at);
    index
}

/// Registers first, the later record of two, RAM by stores only; places past the index
/// stay.
#[test]
fn the_latest_records() {
    let log = [
        record(10, 3, true),
        record(63, 255, true),
        record(10, 255, false),
        record(32, 3, false),
    ]
    .concat();
    let written = [(10, 2), (63, 1), (32, 3), (64 + 3, 0), (64 + 255, 1)];
    let mut index = [&filled()[..], &[7]].concat();
    assert_eq!(build_index(&log, &mut index), Ok(()));
    let blank = vec![NONE; INDEX_PLACES];
    assert_eq!(index[..INDEX_PLACES], entered(blank, 0, &written));
    assert_eq!(index[INDEX_PLACES..], [7]);
    let mut index = filled();
    let before = MAX_RECORDS - 4;
    assert_eq!(add_to_index(&log, before, &mut index), Ok(()));
    assert_eq!(index, entered(filled(), before, &written));
}

/// Each leaves the index, and says what was wrong.
#[test]
fn refusals() {
    let (good, bad) = (record(1, 2, true), record(1, 256, false));
    let refusal = |log: &[u64], before, room| {
        let mut index = filled();
        let answer = add_to_index(log, before, &mut index[..room]);
        assert_eq!(index, filled());
        answer.expect_err("a reason to refuse")
    };
    let refusals = [
        refusal(&bad[1..], MAX_RECORDS, INDEX_PLACES - 1),
        refusal(&bad, MAX_RECORDS, INDEX_PLACES - 1),
        refusal(&good, MAX_RECORDS, INDEX_PLACES - 1),
        refusal(&good, MAX_RECORDS - 1, INDEX_PLACES - 1),
    ];
    assert_eq!(refusals, IndexRefusal::ALL);
    assert_eq!(refusals.map(IndexRefusal::number), [7, 8, 5, 6]);
    let texts = [
        "the log is no whole number of records",
        "a record has a register of 64 or more, or a RAM word of 256 or more",
        "the records before and those of the log are over 4611686018427387904 together",
        "the index has fewer than 320 places",
    ];
    assert_eq!(refusals.map(|refusal| refusal.to_string()), texts);
    for (log, room, wanted) in [
        (&good[1..], 320, IndexRefusal::Partial),
        (&bad, 320, IndexRefusal::OutOfRange),
        (&good, 319, IndexRefusal::Short),
    ] {
        assert_eq!(build_index(log, &mut filled()[..room]), Err(wanted));
    }
}

/// Slices of Rust that hold nothing point nowhere.
#[test]
fn empty_slices() {
    let mut index = filled();
    assert_eq!(add_to_index(&[], 3, &mut index), Ok(()));
    assert_eq!(index, filled());
    assert_eq!(build_index(&[], &mut index), Ok(()));
    assert_eq!(index, [NONE; INDEX_PLACES]);
    assert_eq!(build_index(&[], &mut []), Err(IndexRefusal::Short));
    assert_eq!(add_to_index(&[], 3, &mut []), Err(IndexRefusal::Short));
}

/// A log of the library, cut in two anywhere: `LastWriterIndex` keeps count of the
/// records before, and has the places of the joined log.
#[test]
fn segment_by_segment() {
    // sd x1, 8(x1); addi x1, x1, 8; jal x0, to the first row
    let mut rows = [0; 3];
    let program = [0x0010_b423, 0x0080_8093, 0xff9f_f06f];
    assert_eq!(expand(&program, &mut rows, &mut [0; 3]), Ok(3));
    let mut log = [0; 40 * RECORD_WORDS];
    assert_eq!(segment(&rows, &mut start(&[]), 40, &mut log), Ok(()));
    let mut whole = [0; INDEX_PLACES];
    assert_eq!(build_index(&log, &mut whole), Ok(()));
    for cut in 0..=40 {
        let (first, second) = log.split_at(RECORD_WORDS * cut);
        let mut index = LastWriterIndex::of(first).expect("a log of the library");
        assert_eq!(index.add(second), Ok(()));
        assert_eq!((index.records(), *index.places()), (40, whole));
        let registers = (0..64).map(|x| index.register(x));
        let all = registers.chain((0..256).map(|w| index.ram(w)));
        let numbers: Vec<u64> = all.map(|position| position.unwrap_or(NONE)).collect();
        assert_eq!(numbers, whole);
    }
}

/// A refused segment leaves index and count.
#[test]
fn a_refused_segment() {
    let log = record(1, 2, true);
    let mut index = LastWriterIndex::of(&log).expect("accepted");
    let before = index.clone();
    assert_eq!(index.add(&log[1..]), Err(IndexRefusal::Partial));
    let outside = record(64, 0, false);
    assert_eq!(index.add(&outside), Err(IndexRefusal::OutOfRange));
    assert_eq!(index, before);
    assert_eq!(index.add(&log), Ok(()));
    let found = (index.records(), index.register(1), index.ram(2));
    assert_eq!(found, (2, Some(1), Some(1)));
    assert_eq!(LastWriterIndex::of(&log[1..]), Err(IndexRefusal::Partial));
    assert_eq!(LastWriterIndex::default(), LastWriterIndex::new());
}
