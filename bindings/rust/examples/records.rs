//! Prints the records of a program, as the repository's program `trace` does.
//!
//! records PROGRAM MAX_CYCLES [INPUT..]: PROGRAM is a file of RV64I words, four
//! bytes each, the lowest first; the input words are numbers of 64 bits, decimal
//! or with 0x. The first line is live count, record count and output; then each
//! line has the 17 words of a record. If the library refuses, the one line is
//! `refused,N`.

mod shared;

use magnetar_cpu::{execute, Execution, Expansion, Refusal, MAX_EXECUTE_CYCLES};
use shared::{exit, number, numbers, read_program, record_buffer, Outcome};
use std::env;
use std::io::{self, BufWriter, Write};
use std::process::ExitCode;

const USAGE: &str = "usage: records PROGRAM MAX_CYCLES [INPUT..]";

fn main() -> ExitCode {
    let arguments: Vec<String> = env::args().skip(1).collect();
    exit("records", run(&arguments))
}

fn run(arguments: &[String]) -> Outcome<()> {
    let [path, max_cycles, input @ ..] = arguments else {
        return Err(USAGE.into());
    };
    let program = read_program(path)?;
    let max_cycles = number(max_cycles)?;
    let input = numbers(input)?;
    // No records if they will be refused.
    let is_refused = max_cycles > MAX_EXECUTE_CYCLES;
    let records = if is_refused {
        0
    } else {
        max_cycles.next_power_of_two()
    };
    let mut buffer = record_buffer(records)?;
    let mut out = BufWriter::new(io::stdout().lock());
    match record(&program, &input, max_cycles, &mut buffer) {
        Ok(execution) => print(&mut out, &execution, &buffer)?,
        Err(refusal) => writeln!(out, "refused,{}", refusal.number())?,
    }
    Ok(out.flush()?)
}

/// Expands and executes.
fn record(
    program: &[u32],
    input: &[u64],
    max_cycles: u64,
    buffer: &mut [u64],
) -> Result<Execution, Refusal> {
    let expansion = Expansion::new(program)?;
    execute(&expansion.rows, input, max_cycles, buffer)
}

fn print(out: &mut impl Write, execution: &Execution, buffer: &[u64]) -> io::Result<()> {
    let (live, count) = (execution.live_count, execution.record_count);
    writeln!(out, "{live},{count},{}", execution.cursor.output())?;
    for record in execution.records(buffer) {
        let words: Vec<String> = record.words().iter().map(u64::to_string).collect();
        writeln!(out, "{}", words.join(","))?;
    }
    Ok(())
}
