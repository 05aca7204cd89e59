//! The reference: the Rust source of magnetar-cpu with the edits of the folder
//! `edits`.
//!
//! `build.rs` copies and edits it and writes `modules.rs`. The source is foreign:
//! lints are off, because only answers may be changed in it.

#![allow(warnings)]
#![allow(clippy::all)]

include!(concat!(env!("OUT_DIR"), "/modules.rs"));
