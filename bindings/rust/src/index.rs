//! The last-writer index of a log.

#![forbid(unsafe_code)]

use crate::refusal::{refusals, result};
use crate::{words, Cursor, RECORD_WORDS};

/// The places of an index: register x has place x, RAM word w place 64 + w.
pub const INDEX_PLACES: usize = 320;
/// What a place holds that no record wrote. Any other number is a position, also 0.
pub const NONE: u64 = u64::MAX;
/// The most records of an index: those before a log and those of the log.
pub const MAX_RECORDS: u64 = 1 << 62;

refusals! {
    /// Why a call with an index was refused, by the names of the C header. Nothing
    /// that was lent to it has changed then. If there are several reasons, it is the
    /// first in the order that they have here, which is not that of their numbers.
    IndexRefusal:
    /// The log is no whole number of records.
    Partial = 7, "the log is no whole number of records";
    /// A record, be it a store or not, has a register of 64 or more or a RAM word of
    /// 256 or more.
    OutOfRange = 8, "a record has a register of 64 or more, or a RAM word of 256 or more";
    /// The records before and those of the log are over [`MAX_RECORDS`] together.
    TooManyRecords = 5, "the records before and those of the log are over {MAX_RECORDS} together";
    /// The index has fewer than [`INDEX_PLACES`] places.
    Short = 6, "the index has fewer than {INDEX_PLACES} places";
}

impl IndexRefusal {
    const BUILD: [Self; 3] = [Self::Partial, Self::OutOfRange, Self::Short];
    const ADD: [Self; 4] = [
        Self::Partial,
        Self::OutOfRange,
        Self::TooManyRecords,
        Self::Short,
    ];
}

/// Writes the index of `log`: for each register and RAM word the position, from 0, of
/// the latest record that wrote it, and [`NONE`] where none did.
///
/// Every record writes the register `rd`; only a store writes the RAM word `ram_addr`.
/// The index goes to the first [`INDEX_PLACES`] places, whatever they held; the places
/// after them are left alone. Of a record buffer lend only what a call has written: it
/// may have room for more. [`LastWriterIndex`] says what an index tells of a machine,
/// and holds one in memory of its own.
///
/// # Errors
///
/// The index is left as it was. In this order:
/// - [`IndexRefusal::Partial`], 7: `log` is no whole number of records.
/// - [`IndexRefusal::OutOfRange`], 8: a record, be it a store or not, has an `rd` of 64
///   or more or a `ram_addr` of 256 or more.
/// - [`IndexRefusal::Short`], 6: `index` has fewer than [`INDEX_PLACES`] places.
///
/// No log in memory has enough records for 5.
///
/// # Panics
///
/// If the library's answer is none of its numbers.
pub fn build_index(log: &[u64], index: &mut [u64]) -> Result<(), IndexRefusal> {
    let answer = words::index_build(log, index);
    result("magnetar_index_build", answer, &IndexRefusal::BUILD)
}

/// Adds `log` to the index of the `before` records before it, which becomes that of the
/// joined log.
///
/// A place that the log writes gets `before` plus the position in the log; any other
/// keeps what it holds, whatever that is. So `before` must be how many records the
/// index is of, and zeros are no index: begin with [`build_index`], which takes an empty
/// log too.
///
/// # Errors
///
/// The index is left as it was. In this order:
/// - [`IndexRefusal::Partial`], 7, and [`IndexRefusal::OutOfRange`], 8: as for
///   [`build_index`].
/// - [`IndexRefusal::TooManyRecords`], 5: `before` and the records of the log are over
///   [`MAX_RECORDS`] together.
/// - [`IndexRefusal::Short`], 6: `index` has fewer than [`INDEX_PLACES`] places.
///
/// # Panics
///
/// If the library's answer is none of its numbers.
pub fn add_to_index(log: &[u64], before: u64, index: &mut [u64]) -> Result<(), IndexRefusal> {
    let answer = words::index_add(log, before, index);
    result("magnetar_index_add", answer, &IndexRefusal::ADD)
}

/// The index of a log that is added segment by segment.
///
/// Let the log be the joined one of segment and padding calls from a fresh cursor, each
/// with the same rows and the cursor that the one before left. Then register x of the
/// last cursor, 1 to 63, is `rd_val` of the record at [`register(x)`](Self::register),
/// or 0 if there is none; and RAM word w is `ram_new` of the record at
/// [`ram(w)`](Self::ram). If there is none for a RAM word, it was never stored to: it is
/// as it was at the start, which the index does not tell. Register 0 is not told
/// either, because stages of a register shift write it and no record says so. Of a log
/// that begins at another cursor, a register that no record wrote is not 0 but what it
/// was there.
///
/// ```
/// use magnetar_cpu::{records, segment, start, LastWriterIndex, RECORD_WORDS};
///
/// let rows = [0x0050_0513, 0x00a0_3423, 0x0000_0073]; // x10 = 5; sd x10, 8(x0); ecall
/// let mut cursor = start(&[]);
/// let mut log = [0; 3 * RECORD_WORDS];
/// let (first, second) = log.split_at_mut(RECORD_WORDS);
/// segment(&rows, &mut cursor, 1, first)?;
/// let mut index = LastWriterIndex::of(first).expect("a log of the library");
/// segment(&rows, &mut cursor, 2, second)?;
/// index.add(second).expect("a log of the library");
///
/// assert_eq!(index.records(), 3);
/// assert_eq!(index.register(10), Some(0));
/// assert_eq!((index.ram(0), index.ram(1)), (None, Some(1)));
/// let store = records(&log).nth(1).expect("three records");
/// assert_eq!(store.ram_new(), cursor.ram()[1]);
/// # Ok::<(), magnetar_cpu::Refusal>(())
/// ```
#[derive(Clone, Debug, PartialEq, Eq)]
pub struct LastWriterIndex {
    places: [u64; INDEX_PLACES],
    records: u64,
}

impl LastWriterIndex {
    /// The index of no records.
    pub const fn new() -> Self {
        let places = [NONE; INDEX_PLACES];
        LastWriterIndex { places, records: 0 }
    }

    /// The index of a log.
    ///
    /// # Errors
    ///
    /// As for [`build_index`], but that [`IndexRefusal::Short`] is none of them.
    pub fn of(log: &[u64]) -> Result<Self, IndexRefusal> {
        let mut index = Self::new();
        index.add(log)?;
        Ok(index)
    }

    /// Adds the next records of the log. Of a record buffer lend only what a call has
    /// written: it may have room for more.
    ///
    /// # Errors
    ///
    /// As for [`add_to_index`], but that [`IndexRefusal::Short`] is none of them. The
    /// index is left as it was.
    pub fn add(&mut self, log: &[u64]) -> Result<(), IndexRefusal> {
        add_to_index(log, self.records, &mut self.places)?;
        self.records += (log.len() / RECORD_WORDS) as u64;
        Ok(())
    }

    /// How many records it is of.
    pub fn records(&self) -> u64 {
        self.records
    }

    /// The position of the latest record that wrote register `x`.
    ///
    /// # Panics
    ///
    /// If `x` is 64 or more.
    pub fn register(&self, x: usize) -> Option<u64> {
        position(self.places[Cursor::REGS][x])
    }

    /// The position of the latest record that stored to RAM word `w`.
    ///
    /// # Panics
    ///
    /// If `w` is 256 or more.
    pub fn ram(&self, w: usize) -> Option<u64> {
        position(self.places[Cursor::RAM][w])
    }

    /// All places, as [`build_index`] writes them.
    pub fn places(&self) -> &[u64; INDEX_PLACES] {
        &self.places
    }
}

impl Default for LastWriterIndex {
    fn default() -> Self {
        LastWriterIndex::new()
    }
}

fn position(place: u64) -> Option<u64> {
    (place != NONE).then_some(place)
}
