//! The calls at the limits of words, rows and runs: the most, and one more. Half a
//! gigabyte of rows, so they are made once a run.

use crate::counts::{MAX_COUNT, MAX_RUNS};
use crate::programs::{ordinary_word, program, register_shift};
use crate::rounds::Tell;
use crate::{Call, Executing, Expanding, Expansion, Judging, Reporting, Running};
use crate::{Lending, Modelled, Rng, Rom, ADDI};
use magnetar_cpu::{Cursor, MAX_PROGRAM_WORDS, RECORD_WORDS};

/// The cycles of the calls that are accepted.
const CYCLES: usize = 2;
const ROOM: usize = RECORD_WORDS * CYCLES;

pub fn run_limits(rng: &mut Rng, tell: Tell) {
    let shifts = program(MAX_PROGRAM_WORDS, rng, register_shift);
    expand(&shifts, rng, tell);
    let too_long = program(MAX_PROGRAM_WORDS + 1, rng, ordinary_word);
    expand(&too_long, rng, tell);
    let mut rom = Rom::of(&shifts);
    on_rows(&rom, rng, tell);
    rom.rows.push(ADDI.into());
    // The table needs no program to refuse so many rows.
    rom.program = None;
    on_rows(&rom, rng, tell);
    report(MAX_RUNS, rng, tell);
    report(MAX_RUNS + 1, rng, tell);
}

/// Into buffers that are exactly full.
fn expand(program: &[u32], rng: &mut Rng, tell: Tell) {
    let expansion = Expansion::of(program);
    let (rows, starts) = (expansion.rows.len(), expansion.starts.len());
    let expanding = Expanding::new(program, &expansion, rows, starts, rng);
    tell(&Modelled::new(Lending::Expand(expanding)));
}

/// All calls that take rows, those with a cursor at the last but one.
fn on_rows(rom: &Rom, rng: &mut Rng, tell: Tell) {
    tell(&Modelled::new(Lending::IsExpansion(Judging::new(
        &rom.rows,
    ))));
    let mut image = [0; Cursor::WORDS];
    image[Cursor::MICRO_PC] = rom.rows.len() as u64 - 2;
    image[Cursor::NEXT_FETCH] = rom.rows.len() as u64 - 2;
    for call in [Call::Segment, Call::Padding] {
        let running = Running::new(call, rom, &image, CYCLES as u64, ROOM, rng);
        tell(&Modelled::new(Lending::Run(running)));
    }
    let executing = Executing::new(rom, &[], CYCLES as u64, ROOM, rng);
    tell(&Modelled::new(Lending::Execute(executing)));
}

/// Into a line that is exactly full for the most runs. Their mean is 37.5 hundredths
/// below the largest, a half that goes up to an odd number.
fn report(runs: usize, rng: &mut Rng, tell: Tell) {
    let records = vec![MAX_COUNT; runs];
    let mut live = records.clone();
    live[0] -= 3 * 8192;
    let reporting = Reporting::new(&live, &records, 51, rng);
    tell(&Modelled::new(Lending::Report(reporting)));
}
