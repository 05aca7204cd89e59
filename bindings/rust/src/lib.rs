//! The verified trace recorder for RV64I, called through its static library.
//!
//! `Expansion::new` turns a program into rows; a machine runs on the rows, and each
//! of its cycles gives a record of [`RECORD_WORDS`] words. The calls write into
//! memory that the caller lends. A call that is refused has changed none of it and
//! says why: a [`Refusal`].
//!
//! In one call, from the beginning until the program halts:
//!
//! ```
//! # #[cfg(feature = "alloc")] {
//! use magnetar_cpu::{execute, Expansion, Stop, RECORD_WORDS};
//!
//! let program = [0x0050_0513, 0x0000_0073]; // addi x10, x0, 5; ecall
//! let expansion = Expansion::new(&program)?;
//!
//! let max_cycles: u64 = 8;
//! let mut buffer = vec![0; RECORD_WORDS * max_cycles.next_power_of_two() as usize];
//! let execution = execute(&expansion.rows, &[], max_cycles, &mut buffer)?;
//! assert_eq!((execution.live_count, execution.record_count), (2, 2));
//! assert_eq!(execution.stop, Stop::Ecall);
//! assert_eq!(execution.cursor.output(), 5);
//!
//! let mut records = execution.records(&buffer);
//! let first = records.next().expect("two records");
//! assert_eq!((first.rd(), first.rd_val()), (10, 5));
//! assert_eq!(
//!     first.to_string(),
//!     "row 0 -> 1: register 10 = 5 (rd_old 0); flags we is_arith"
//! );
//! # }
//! # Ok::<(), magnetar_cpu::Refusal>(())
//! ```
//!
//! In parts, with a [`Cursor`] that the calls hand on and that can be kept as a
//! checkpoint:
//!
//! ```
//! use magnetar_cpu::{padding, same_checkpoint, segment, start, Record, RECORD_WORDS};
//!
//! let rows = [0x0050_0513, 0x0000_0073]; // the rows from above
//! let mut records = [0; RECORD_WORDS];
//! let mut cursor = start(&[]);
//! segment(&rows, &mut cursor, 1, &mut records)?;
//! assert_eq!(Record::new(&records).rd_val(), 5);
//!
//! let checkpoint = cursor.clone();
//! segment(&rows, &mut cursor, 1, &mut records)?;
//! assert!(cursor.is_halted() && Record::new(&records).halted_latch());
//! assert!(!same_checkpoint(&checkpoint, &cursor));
//!
//! padding(&rows, &mut cursor, 1, &mut records)?;
//! assert_eq!(cursor.to_string(), "row 1, cycles 2, halted with output 5");
//! # Ok::<(), magnetar_cpu::Refusal>(())
//! ```
//!
//! Of the records that were written, a [`LastWriterIndex`] says for each register and
//! RAM word which was the latest to write it; calls with an index have refusals of
//! their own, [`IndexRefusal`]. A [`Report`] is a line of figures over many runs, of
//! their live counts and record counts; its refusals are [`ReportRefusal`]. A
//! [`Dispatcher`] grants slices of one budget of cycles to sixteen callers in turn; its
//! refusals are [`DispatchRefusal`].
//!
//! Library and crate must be of one version: with a library whose cursor has
//! another length ([`cursor_words`]) the functions that take or give a cursor or a
//! dispatcher panic. The same length does not mean the same answers: a library before
//! 0.2.0 gives 0 for slt and slti.
//!
//! The crate needs `core` only. The feature `alloc`, on by default, adds
//! `Expansion`, which owns its rows; without it, [`expand`] writes into memory that
//! is lent.
//!
//! The contracts that the library is proved to keep are in the repository, in
//! docs/LIBRARY.md.

#![no_std]
#![deny(unsafe_code)]
#![deny(unsafe_op_in_unsafe_fn)]
#![warn(missing_docs)]

#[cfg(feature = "alloc")]
extern crate alloc;
#[cfg(test)]
extern crate std;

mod calls;
mod cursor;
mod dispatcher;
#[cfg(feature = "alloc")]
mod expansion;
mod flags;
mod index;
mod record;
mod refusal;
mod report;
mod stop;
#[allow(unsafe_code)]
pub mod words;

pub use calls::{
    cursor_words, execute, expand, is_expansion, padding, same_checkpoint, segment, start,
    Execution, MAX_EXECUTE_CYCLES, MAX_PROGRAM_WORDS, MAX_ROWS, MAX_TOTAL_CYCLES, ROWS_PER_WORD,
};
pub use cursor::{Cursor, Image};
pub use dispatcher::{
    DispatchRefusal, Dispatcher, Grant, CALLERS, DISPATCHER_WORDS, MAX_SLICE, MAX_WANTED,
};
#[cfg(feature = "alloc")]
pub use expansion::Expansion;
pub use flags::Flags;
pub use index::{
    add_to_index, build_index, IndexRefusal, LastWriterIndex, INDEX_PLACES, MAX_RECORDS, NONE,
};
pub use record::{records, Record, Records, RECORD_WORDS};
pub use refusal::{NotARefusal, Refusal};
pub use report::{report, Report, ReportRefusal, MAX_COUNT, MAX_RUNS, REPORT_BYTES};
pub use stop::Stop;

/// Runs the example of README.md among the tests.
#[cfg(all(doctest, feature = "alloc"))]
#[doc = include_str!("../README.md")]
mod readme {}
