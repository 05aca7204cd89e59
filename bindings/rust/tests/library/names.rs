//! Refusals, limits, places and flags have the names and numbers of the C header.

use magnetar_cpu::{Cursor, Dispatcher, Record};
use magnetar_cpu::{DispatchRefusal, IndexRefusal, Refusal, ReportRefusal};
use magnetar_cpu::{CALLERS, DISPATCHER_WORDS, INDEX_PLACES, NONE, RECORD_WORDS};
use magnetar_cpu::{MAX_COUNT, MAX_EXECUTE_CYCLES, MAX_PROGRAM_WORDS, MAX_RECORDS};
use magnetar_cpu::{MAX_ROWS, MAX_RUNS, MAX_SLICE, MAX_TOTAL_CYCLES, MAX_WANTED};
use magnetar_cpu::{REPORT_BYTES, ROWS_PER_WORD};
use std::fmt::Debug;

const HEADER: &str = include_str!("../../../../include/magnetar_cpu.h");

#[track_caller]
fn assert_defined(name: &str, value: &str) {
    let line = format!("#define MAGNETAR_{name} {value}");
    assert!(HEADER.lines().any(|other| other == line), "{line}");
}

/// `NoRows` as `NO_ROWS`.
fn in_capitals(name: &str) -> String {
    let mut capitals = String::new();
    for letter in name.chars() {
        if letter.is_uppercase() && !capitals.is_empty() {
            capitals.push('_');
        }
        capitals.push(letter.to_ascii_uppercase());
    }
    capitals
}

#[track_caller]
fn assert_refusal(refusal: impl Debug, number: u64) {
    assert_defined(&in_capitals(&format!("{refusal:?}")), &number.to_string());
}

#[test]
fn refusals_have_the_names_of_the_header() {
    for refusal in Refusal::ALL {
        assert_refusal(refusal, refusal.number());
    }
    for refusal in IndexRefusal::ALL {
        assert_refusal(refusal, refusal.number());
    }
    for refusal in ReportRefusal::ALL {
        assert_refusal(refusal, refusal.number());
    }
    for refusal in DispatchRefusal::ALL {
        assert_refusal(refusal, refusal.number());
    }
}

#[test]
fn limits_have_the_names_of_the_header() {
    assert_defined("MAX_PROGRAM_WORDS", &MAX_PROGRAM_WORDS.to_string());
    assert_defined("MAX_ROWS", &MAX_ROWS.to_string());
    assert_defined("ROWS_PER_WORD", &ROWS_PER_WORD.to_string());
    assert_defined("MAX_RUNS", &MAX_RUNS.to_string());
    assert_defined("MAX_SLICE", &MAX_SLICE.to_string());
    for (name, limit) in [
        ("MAX_TOTAL_CYCLES", MAX_TOTAL_CYCLES),
        ("MAX_EXECUTE_CYCLES", MAX_EXECUTE_CYCLES),
        ("MAX_RECORDS", MAX_RECORDS),
        ("MAX_COUNT", MAX_COUNT),
        ("MAX_WANTED", MAX_WANTED),
    ] {
        assert!(limit.is_power_of_two());
        assert_defined(name, &format!("((uint64_t)1 << {})", limit.ilog2()));
    }
}

/// Constants of a type, with their names.
macro_rules! named {
    ($of:ident: $($name:ident)*) => { [$((stringify!($name), $of::$name)),*] };
}

#[test]
fn places_have_the_names_of_the_header() {
    let cursor = named!(Cursor: WORDS MICRO_PC CYCLES HALTED OUTPUT NEXT_FETCH);
    let ranges = [("REGS", Cursor::REGS.start), ("RAM", Cursor::RAM.start)];
    for (name, place) in cursor.into_iter().chain(ranges) {
        assert_defined(&format!("CURSOR_{name}"), &place.to_string());
    }
    let record = named!(Record: MICRO_PC RS1_VAL RS2_VAL RD_VAL RD_OLD RD RAM_ADDR RAM_WORD
        RAM_OLD RAM_NEW STORE_SRC NEXT_PC ALU_A ALU_B ALU_OUT SHIFT_OUT PACKED);
    assert_eq!(record.len(), RECORD_WORDS);
    for (name, place) in record {
        assert_defined(&format!("RECORD_{name}"), &place.to_string());
    }
    assert_defined("REGS", &Cursor::REGS.len().to_string());
    assert_defined("RAM_WORDS", &Cursor::RAM.len().to_string());
    assert_defined("RECORD_WORDS", &RECORD_WORDS.to_string());
    assert_defined("INDEX_PLACES", &INDEX_PLACES.to_string());
    assert_eq!(INDEX_PLACES, Cursor::REGS.len() + Cursor::RAM.len());
    assert_defined("NONE", "UINT64_MAX");
    assert_eq!(NONE, u64::MAX);
    assert_defined("REPORT_BYTES", &REPORT_BYTES.to_string());
    assert_defined("CALLERS", &CALLERS.to_string());
    let dispatcher = named!(Dispatcher: POSITION BUDGET);
    let wanted = [("WANTED", Dispatcher::WANTED.start)];
    for (name, place) in dispatcher.into_iter().chain(wanted) {
        assert_defined(&format!("DISPATCHER_{name}"), &place.to_string());
    }
    assert_defined("DISPATCHER_WORDS", &DISPATCHER_WORDS.to_string());
    assert_eq!(Dispatcher::WANTED.len(), CALLERS);
}

#[test]
fn flags_have_the_names_of_the_header() {
    let flags = named!(Record: WE BRANCH_TAKEN IS_ARITH IS_LOGIC IS_SUB_OP IS_SHIFT IS_LOAD
        IS_STORE LD_BYTE LD_HALF LD_WORD HALTED_LATCH);
    for (name, bit) in flags {
        assert_defined(&format!("FLAG_{name}"), &format!("{bit:#010x}"));
    }
}
