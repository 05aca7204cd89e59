//! The last-writer index of a log, timed in the library, in an index written in Rust,
//! and beside a pass that only reads what an index has to.

use crate::machine::{Loop, LOOPS};
use crate::mix::timed;
use differential::Expansion;
use magnetar_cpu::{
    add_to_index, build_index, segment, start, IndexRefusal, INDEX_PLACES, NONE, RECORD_WORDS,
};
use std::hint::black_box;
use std::time::Duration;

/// The loops whose logs are indexed: 3 of 8 records are stores, and 1 of 16.
const STORING: [&str; 2] = ["load and store", "mixed, branches"];
/// The lengths of the logs: 0.6, 8.9 and 136 MB.
const LOGS: [usize; 3] = [4096, 65_536, 1_000_000];
/// The records that a round indexes in a row, so that all passes but the first find
/// the log in the cache, if it has room there.
const RECORDS_A_ROUND: usize = 1 << 19;
/// How many records are before a log that is added.
const BEFORE: u64 = 1 << 40;

type Work = fn(&[u64], &mut [u64]) -> Result<(), IndexRefusal>;

/// A call on an index in Rust and in the library. Their loop stands once in the library
/// and twice in the Rust, and where its jumps come to lie makes a fifth in its speed: so
/// the two calls are timed together.
struct Call {
    name: &'static str,
    rust: Work,
    library: Work,
}

const CALLS: [Call; 2] = [
    Call {
        name: "build",
        rust: |log, index| in_rust(log, 0, [NONE; INDEX_PLACES], index),
        library: build_index,
    },
    Call {
        name: "add",
        rust: |log, index| in_rust(log, BEFORE, front(index), index),
        library: |log, index| add_to_index(log, BEFORE, index),
    },
];

/// The index as one would write it in Rust. It answers what the library does.
fn in_rust(
    log: &[u64],
    before: u64,
    mut held: [u64; INDEX_PLACES],
    index: &mut [u64],
) -> Result<(), IndexRefusal> {
    let records = log.chunks_exact(RECORD_WORDS);
    if !records.remainder().is_empty() {
        return Err(IndexRefusal::Partial);
    }
    let count = records.len() as u64;
    for (i, record) in records.enumerate() {
        let (register, word) = (record[5], record[6]);
        if register >= 64 || word >= 256 {
            return Err(IndexRefusal::OutOfRange);
        }
        let position = before.wrapping_add(i as u64);
        held[register as usize] = position;
        if record[16] >> 23 & 1 == 1 {
            held[64 + word as usize] = position;
        }
    }
    if before.saturating_add(count) > 1 << 62 {
        return Err(IndexRefusal::TooManyRecords);
    }
    let index = index.get_mut(..INDEX_PLACES).ok_or(IndexRefusal::Short)?;
    index.copy_from_slice(&held);
    Ok(())
}

/// The index that stands first in a buffer; any, if the buffer is too short for one.
fn front(index: &[u64]) -> [u64; INDEX_PLACES] {
    *index.first_chunk().unwrap_or(&[NONE; INDEX_PLACES])
}

/// The sum of the words that an index looks at. No index can be had with less.
fn read(log: &[u64]) -> u64 {
    let records = log.chunks_exact(RECORD_WORDS);
    let sums = records.map(|record| record[5].wrapping_add(record[6]).wrapping_add(record[16]));
    sums.fold(0, u64::wrapping_add)
}

#[derive(Clone, Copy)]
enum Side {
    Rust,
    Library,
    Read,
}

/// A log, and the best times so far of both calls on it, and of reading it.
pub struct Indexed {
    pub name: &'static str,
    log: Vec<u64>,
    index: [u64; INDEX_PLACES],
    best: [Duration; 3],
}

impl Indexed {
    /// The log of every loop that stores, in every length.
    pub fn all() -> Result<Vec<Indexed>, String> {
        let loops = LOOPS.iter().filter(|of| STORING.contains(&of.name));
        let logs = loops.flat_map(|of| LOGS.map(|records| Indexed::of_loop(of, records)));
        logs.collect()
    }

    /// An error if the library and the Rust index do not agree on the log.
    fn of_loop(of: &Loop, records: usize) -> Result<Indexed, String> {
        let rows = Expansion::of(of.program).rows;
        let mut log = vec![0; records * RECORD_WORDS];
        segment(&rows, &mut start(&[]), records as u64, &mut log).map_err(|e| e.to_string())?;
        let index: [u64; INDEX_PLACES] = std::array::from_fn(|place| place as u64);
        for call in &CALLS {
            let (mut library, mut rust) = (index, index);
            let answer = (call.library)(&log, &mut library);
            if answer.is_err() || answer != (call.rust)(&log, &mut rust) || library != rust {
                let (name, call) = (of.name, call.name);
                return Err(format!("{name}, {call}: the library's index is wrong"));
            }
        }
        Ok(Indexed {
            name: of.name,
            log,
            index,
            best: [Duration::MAX; 3],
        })
    }

    /// Times each side in turn, several passes in a row.
    pub fn round(&mut self) {
        for side in [Side::Rust, Side::Library, Side::Read] {
            for _ in 0..RECORDS_A_ROUND.div_ceil(self.records()) {
                self.time(side);
            }
        }
    }

    fn time(&mut self, side: Side) {
        let (log, index) = (black_box(self.log.as_slice()), black_box(&mut self.index));
        let mut both = |work: fn(&Call) -> Work| {
            let times = CALLS.iter().map(|call| timed(|| work(call)(log, index)).0);
            times.sum::<Duration>() / 2
        };
        let time = match side {
            Side::Rust => both(|call| call.rust),
            Side::Library => both(|call| call.library),
            Side::Read => timed(|| read(log)).0,
        };
        let best = &mut self.best[side as usize];
        *best = time.min(*best);
    }

    pub fn records(&self) -> usize {
        self.log.len() / RECORD_WORDS
    }

    /// The speed of the Rust index, of the library, each in the mean of its two calls, and of
    /// reading.
    pub fn records_per_microsecond(&self) -> [f64; 3] {
        let speed = |time: Duration| self.records() as f64 / time.as_secs_f64() / 1e6;
        self.best.map(speed)
    }
}

#[cfg(test)]
mod tests {
    use super::*;

    const PLAIN: [u64; RECORD_WORDS] = [0; RECORD_WORDS];

    /// A record of zeros with one other word.
    fn with(word: usize, value: u64) -> [u64; RECORD_WORDS] {
        let mut record = PLAIN;
        record[word] = value;
        record
    }

    /// What the library and the Rust index answer and leave.
    fn both(log: &[u64], before: u64, places: usize) -> [(Result<(), IndexRefusal>, Vec<u64>); 2] {
        let lent: Vec<u64> = (0..places as u64).collect();
        let (mut index, mut rust) = (lent.clone(), lent);
        let answer = add_to_index(log, before, &mut index);
        let held = front(&rust);
        [
            (answer, index),
            (in_rust(log, before, held, &mut rust), rust),
        ]
    }

    #[test]
    fn the_rust_index_answers_what_the_library_does() {
        let pairs = [PLAIN, with(5, 63), with(6, 255), with(16, 1 << 23)];
        let bad = [with(5, 64), with(6, 256)];
        for first in pairs.iter().chain(&bad) {
            let log = [*first, pairs[3], pairs[1]].concat();
            for (words, before, places) in [
                (51, 0, 320),
                (34, 5, 321),
                (0, 7, 320),
                (50, 0, 319),
                (51, 0, 319),
                (51, (1 << 62) - 3, 320),
                (51, (1 << 62) - 2, 319),
                (51, u64::MAX, 0),
            ] {
                let [library, rust] = both(&log[..words], before, places);
                assert_eq!(
                    library, rust,
                    "{words} words, {before} before, {places} places"
                );
            }
        }
    }

    #[test]
    fn a_round_times_every_side() {
        let mut indexed = Indexed::of_loop(&LOOPS[1], 1000).expect("answers that agree");
        indexed.round();
        assert!(indexed.best.iter().all(|&time| time < Duration::MAX));
    }

    /// The share of stores is the one that is named.
    #[test]
    fn logs_have_stores() {
        let loops = LOOPS.iter().filter(|of| STORING.contains(&of.name));
        let stores = loops.map(|of| {
            let indexed = Indexed::of_loop(of, 12_000).expect("answers that agree");
            let records = indexed.log.chunks_exact(RECORD_WORDS);
            records.filter(|record| record[16] >> 23 & 1 == 1).count()
        });
        assert_eq!(stores.collect::<Vec<_>>(), [4500, 748]);
    }
}
