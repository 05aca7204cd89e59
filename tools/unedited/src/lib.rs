//! The unedited source: the Rust source of magnetar-cpu as it lies, for the test
//! that the reference changes no other answers than its edits say.
//!
//! `build.rs` copies it and writes `modules.rs`. The source is foreign: lints are
//! off.

#![allow(warnings)]
#![allow(clippy::all)]

include!(concat!(env!("OUT_DIR"), "/modules.rs"));
