//! The last-writer index by the words of its request alone: for every place, all
//! records are looked through.

use std::slice::ChunksExact;

/// The whole records of a log.
pub fn records(log: &[u64]) -> ChunksExact<'_, u64> {
    log.chunks_exact(17)
}

/// Bit 7 of the flags, which begin at bit 16.
pub fn is_store(record: &[u64]) -> bool {
    record[16] >> (16 + 7) & 1 == 1
}

/// Whether there are such a register and such a RAM word, be it a store or not.
pub fn is_inside(record: &[u64]) -> bool {
    record[5] < 64 && record[6] < 256
}

/// Whether a record writes what a place stands for: a register, or from place 64 on
/// a RAM word.
pub fn writes(record: &[u64], place: usize) -> bool {
    match place {
        0..64 => record[5] == place as u64,
        _ => is_store(record) && record[6] == place as u64 - 64,
    }
}

/// The position of the latest record that writes a place.
pub fn latest(log: &[u64], place: usize) -> Option<usize> {
    records(log).rposition(|record| writes(record, place))
}

/// How many records there are with the earlier ones. In u128 nothing wraps.
pub fn joined(log: &[u64], earlier: u64) -> u128 {
    u128::from(earlier) + records(log).len() as u128
}

/// The number of the refusal, or 0, for an index of so many places. The lines are in
/// the order in which they are tested.
pub fn refusal(log: &[u64], earlier: u64, places: usize) -> u64 {
    let table = [
        (7, !records(log).remainder().is_empty()),
        (8, !records(log).all(is_inside)),
        (5, joined(log, earlier) > 1 << 62),
        (6, places < 320),
    ];
    let line = table.iter().find(|(_, met)| *met);
    line.map_or(0, |(number, _)| *number)
}
