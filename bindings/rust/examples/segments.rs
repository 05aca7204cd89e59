//! Makes the segments of a run anew on several threads, each from its checkpoint.
//!
//! segments PROGRAM CYCLES LENGTH THREADS [INPUT..]: PROGRAM and INPUT as for
//! `records`. A first pass over the run keeps the cursor before every segment of
//! LENGTH cycles; the last one may be shorter. The threads then write each segment
//! into its part of one log, in any order. That log must be the log of one call.

mod shared;

use magnetar_cpu::{segment, start, Cursor, Expansion, Refusal, RECORD_WORDS};
use shared::{exit, number, numbers, read_program, record_buffer, Outcome};
use std::env;
use std::iter;
use std::process::ExitCode;
use std::sync::Mutex;
use std::thread;

const USAGE: &str = "usage: segments PROGRAM CYCLES LENGTH THREADS [INPUT..]";
const MOST_THREADS: u64 = 256;

/// A segment: the cursor before it, and the part of the log that it fills.
struct Piece<'a> {
    checkpoint: Cursor,
    part: &'a mut [u64],
}

fn main() -> ExitCode {
    let arguments: Vec<String> = env::args().skip(1).collect();
    exit("segments", run(&arguments))
}

fn run(arguments: &[String]) -> Outcome<()> {
    let [path, cycles, length, threads, input @ ..] = arguments else {
        return Err(USAGE.into());
    };
    let program = read_program(path)?;
    let (cycles, length, threads) = (number(cycles)?, number(length)?, number(threads)?);
    let input = numbers(input)?;
    if length == 0 || threads == 0 || threads > MOST_THREADS {
        return Err(format!("LENGTH is 1 or more, THREADS 1 to {MOST_THREADS}").into());
    }
    let rows = Expansion::new(&program)?.rows;
    let mut whole = record_buffer(cycles)?;
    segment(&rows, &mut start(&input), cycles, &mut whole)?;
    let mut joined = record_buffer(cycles)?;
    // A segment longer than the run is the run.
    let mut scratch = record_buffer(length.min(cycles.max(1)))?;
    let pieces = cut(&rows, &input, &mut joined, &mut scratch)?;
    let segments = pieces.len();
    remake(&rows, pieces, threads)?;
    if joined != whole {
        return Err("the joined log is not that of one call".into());
    }
    println!(
        "cycles {cycles}, segments {segments}, threads {threads}: \
         the joined log is that of one call"
    );
    Ok(())
}

/// The first pass: its records go to `scratch`, only its cursors are kept.
fn cut<'a>(
    rows: &[u64],
    input: &[u64],
    log: &'a mut [u64],
    scratch: &mut [u64],
) -> Result<Vec<Piece<'a>>, Refusal> {
    let mut cursor = start(input);
    let mut pieces = Vec::new();
    for part in log.chunks_mut(scratch.len()) {
        let checkpoint = cursor.clone();
        segment(rows, &mut cursor, cycles_of(part), scratch)?;
        pieces.push(Piece { checkpoint, part });
    }
    Ok(pieces)
}

/// Each thread takes the next piece until none is left.
fn remake(rows: &[u64], pieces: Vec<Piece>, threads: u64) -> Result<(), Refusal> {
    let pieces = Mutex::new(pieces.into_iter());
    let next = || pieces.lock().expect("no thread has panicked").next();
    let work = || iter::from_fn(next).try_for_each(|piece| fill(rows, piece));
    thread::scope(|scope| {
        let workers: Vec<_> = (0..threads).map(|_| scope.spawn(work)).collect();
        let mut answers = workers.into_iter().map(|worker| worker.join());
        answers.try_for_each(|answer| answer.expect("no thread has panicked"))
    })
}

fn fill(rows: &[u64], mut piece: Piece) -> Result<(), Refusal> {
    let cycles = cycles_of(piece.part);
    segment(rows, &mut piece.checkpoint, cycles, piece.part)
}

fn cycles_of(part: &[u64]) -> u64 {
    (part.len() / RECORD_WORDS) as u64
}
