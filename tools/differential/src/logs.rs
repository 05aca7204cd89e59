//! Random logs for an index: those of calls, made-up ones, and damaged ones.

use crate::random::word;
use crate::Rng;
use magnetar_cpu::{Record, MAX_RECORDS, RECORD_WORDS};

const MOST_RECORDS: usize = 20;

/// The log of a call or a made-up one, up to twice damaged.
pub fn log(of_call: &[u64], rng: &mut Rng) -> Vec<u64> {
    let mut log = match rng.below(3) {
        0 => (0..rng.below(MOST_RECORDS))
            .flat_map(|_| record(rng))
            .collect(),
        _ => of_call.to_vec(),
    };
    (0..rng.below(3)).for_each(|_| damage(&mut log, rng));
    log
}

/// Words that no machine need leave, but a register and a RAM word that there are.
fn record(rng: &mut Rng) -> [u64; RECORD_WORDS] {
    let mut record = std::array::from_fn(|_| word(rng));
    record[Record::RD] = rng.below(64) as u64;
    record[Record::RAM_ADDR] = rng.below(256) as u64;
    record
}

/// Changes the length or, mostly, a word, and of words those that an index is
/// made of.
fn damage(log: &mut Vec<u64>, rng: &mut Rng) {
    let records = log.len() / RECORD_WORDS;
    if records == 0 || rng.below(6) == 0 {
        return match rng.below(2) {
            0 => log.truncate(rng.below(log.len() + 1)),
            _ => log.resize(log.len() + 1 + rng.below(RECORD_WORDS), word(rng)),
        };
    }
    let record = &mut log[RECORD_WORDS * rng.below(records)..][..RECORD_WORDS];
    match rng.below(6) {
        0 => record[Record::RD] = 63 + rng.below(2) as u64,
        1 => record[Record::RAM_ADDR] = 255 + rng.below(2) as u64,
        2 => record[[Record::RD, Record::RAM_ADDR][rng.below(2)]] = word(rng),
        3 | 4 => record[Record::PACKED] ^= 1 << rng.below(28),
        _ => record[rng.below(RECORD_WORDS)] = word(rng),
    }
}

/// How many records came before a log of so many, often near where they are too
/// many together or their sum wraps.
pub fn earlier(records: usize, rng: &mut Rng) -> u64 {
    let left = MAX_RECORDS - records as u64;
    match rng.below(8) {
        0 => left,
        1 => left + 1,
        2 => MAX_RECORDS + rng.below(2) as u64,
        3 => u64::MAX - rng.below(4) as u64,
        4 => word(rng),
        _ => rng.below(1000) as u64,
    }
}
