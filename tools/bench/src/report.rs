//! The tables that are printed.

use crate::figures::Reported;
use crate::index::Indexed;
use crate::machine::Machine;
use crate::mix::Mix;
use crate::short::{nanoseconds_per_row, Short};
use crate::target::{state, Missed, INDEX, PACKED, RATIO, REPORT, ROWS, RUN};
use crate::turns::Dispatched;

pub fn print_expansion(mixes: &[Mix], missed: &mut Vec<Missed>) {
    println!(
        "\nExpansion, million words/s; target: ratio at least {}",
        RATIO.least
    );
    println!("(Rust with what it allocates, library into lent buffers)");
    println!("                          Rust  library  ratio");
    for mix in mixes {
        let name = mix.name;
        let (reference, library) = mix.words_per_microsecond();
        let ratio = library / reference;
        let state = state(&format!("expansion, {name}"), ratio, &RATIO, missed);
        println!("{name:<22}{reference:>8.1}{library:>9.1}{ratio:>7.2}  {state}");
    }
}

pub fn print_test(mixes: &[Mix], missed: &mut Vec<Missed>) {
    println!("\nTest whether rows are an expansion, library only, rows/ns;");
    println!(
        "target: at least {} for the first mix, repeated",
        ROWS.least
    );
    println!("                          rows  after Rust  repeated");
    for (number, mix) in mixes.iter().enumerate() {
        let (name, rows) = (mix.name, mix.rows());
        let (first, later) = mix.rows_per_nanosecond();
        let state = match number {
            0 => state(&format!("test, {name}"), later, &ROWS, missed),
            _ => "no target",
        };
        println!("{name:<22}{rows:>8}{first:>12.2}{later:>10.2}  {state}");
    }
}

pub fn print_machines(machines: &[Machine], missed: &mut Vec<Missed>) {
    println!("\nLoops and halted machines in segments, million records/s; targets:");
    println!("ratio to the Rust's run_segment at least {},", RUN.least);
    println!(
        "to the same with its records packed into words at least {}",
        PACKED.least
    );
    println!("(Rust with what it allocates; packed records and library into lent buffers;");
    println!("several segments of each in a row, into the same memory)");
    println!("{MACHINES_HEAD}");
    for machine in machines {
        let (name, cycles) = (machine.name, machine.cycles);
        let (speeds, [to_reference, to_packed]) = speeds_and_ratios(machine);
        let name_of = |what: &str| format!("{name}, {cycles} cycles{what}");
        let states = [
            state(&name_of(""), to_reference, &RUN, missed),
            state(&name_of(", packed"), to_packed, &PACKED, missed),
        ];
        println!(
            "{speeds}{to_reference:>7.2} {:<6}{to_packed:>5.2} {}",
            states[0], states[1]
        );
    }
}

pub fn print_cold(machines: &[Machine], others: usize) {
    println!("\nThe same where the memory of a segment is not in the cache: {others} MiB are");
    println!("written before each; no target");
    println!("{MACHINES_HEAD}");
    for machine in machines {
        let (speeds, [to_reference, to_packed]) = speeds_and_ratios(machine);
        println!("{speeds}{to_reference:>7.2}{to_packed:>12.2}");
    }
}

pub fn print_short(shorts: &[Short]) {
    println!("\nA call that runs few cycles of the ALU loop, or none, ns; no target");
    println!("(the library tests all rows and copies the cursor in every call, the Rust neither)");
    println!("                rows  cycles    Rust  library");
    for short in shorts {
        let (rows, cycles) = (short.rows(), short.cycles());
        let (reference, library) = short.nanoseconds();
        println!("{rows:>20}{cycles:>8}{reference:>8}{library:>9}");
    }
    let row = nanoseconds_per_row(shorts);
    println!("for each row of its ROM a call of the library takes {row:.2} ns");
}

pub fn print_indexes(indexes: &[Indexed], missed: &mut Vec<Missed>) {
    println!("\nThe last-writer index of a log, built and added to, million records/s; target:");
    println!("ratio to an index written in Rust at least {}", INDEX.least);
    println!("(reading adds up the three words of each record that an index looks at)");
    println!("                       records    Rust  library  ratio     reading   to it");
    for indexed in indexes {
        let (name, records) = (indexed.name, indexed.records());
        let [rust, library, read] = indexed.records_per_microsecond();
        let ratio = library / rust;
        let state = state(&format!("index, {name}, {records}"), ratio, &INDEX, missed);
        let speeds =
            format!("{name:<22}{records:>8}{rust:>8.1}{library:>9.1}{ratio:>7.2} {state:<6}");
        println!("{speeds}{read:>7.1}{:>8.2}", library / read);
    }
}

pub fn print_reports(reports: &[Reported], missed: &mut Vec<Missed>) {
    println!("\nA report over many runs, ns; target:");
    println!(
        "ratio to a report written in Rust at least {}",
        REPORT.least
    );
    println!("(reading adds up both lists)");
    println!("                  runs     Rust  library  ratio          reading   to it");
    for reported in reports {
        let runs = reported.runs();
        let [rust, library, read] = reported.nanoseconds();
        let ratio = rust / library;
        let state = state(&format!("report, {runs} runs"), ratio, &REPORT, missed);
        let times = format!("{runs:>22}{rust:>9.0}{library:>9.0}{ratio:>7.2} {state:<6}");
        println!("{times}{read:>10.0}{:>8.2}", read / library);
    }
}

pub fn print_dispatchers(dispatchers: &[Dispatched]) {
    println!("\nA call on a dispatcher, ns; no target");
    println!("(the library copies the dispatcher in every call, the Rust changes it in place)");
    println!("                          Rust  library  ratio");
    for dispatched in dispatchers {
        let [rust, library] = dispatched.nanoseconds();
        let (name, ratio) = (dispatched.name, rust / library);
        println!("{name:<22}{rust:>8.1}{library:>9.1}{ratio:>7.2}");
    }
}

const MACHINES_HEAD: &str =
    "                        cycles    Rust  packed  library  ratio   to packed";

/// The first columns of a machine's line, and the library's speed over that of the
/// reference and over that with packed records.
fn speeds_and_ratios(machine: &Machine) -> (String, [f64; 2]) {
    let (name, cycles) = (machine.name, machine.cycles);
    let [reference, packed, library] = machine.records_per_microsecond();
    let speeds = format!("{name:<22}{cycles:>8}{reference:>8.1}{packed:>8.1}{library:>9.1}");
    (speeds, [library / reference, library / packed])
}
