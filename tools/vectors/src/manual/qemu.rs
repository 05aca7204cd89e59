//! What another implementation of RV64I, qemu-riscv64, makes of a case.

use super::case::{Case, State, RAM_WORDS, REGISTERS};
use crate::asm::jal;
use crate::tempfile::TempFile;
use crate::tool::{Tool, BINUTILS};
use std::fs::File;
use std::process::Stdio;

const HARNESS: &str = include_str!("harness.s");
const AS: Tool = Tool {
    name: "riscv64-linux-gnu-as",
    package: BINUTILS,
};
const LD: Tool = Tool {
    name: "riscv64-linux-gnu-ld",
    package: BINUTILS,
};
const QEMU: Tool = Tool {
    name: "qemu-riscv64",
    package: "qemu-user",
};
/// Where qemu puts the guest's address 0. Without it, only root could have a
/// guest page there.
const GUEST_BASE: &str = "0x10000000000";

/// Where the sections of the harness lie.
const SECTIONS: [&str; 3] = [
    "--section-start=.low=0",
    "--section-start=.harness=0x10000",
    "--section-start=.record=0x20000",
];

/// RAM can lie here, too: a multiple of its size with bits above the lower 32.
pub const HIGH: u64 = 0x1234_5678_9000;

/// The words of the slot, and where the harness has the two jumps behind it.
const SLOT_WORDS: i64 = 10;
const UNTAKEN: i64 = 4 * SLOT_WORDS;
const TAKEN: i64 = UNTAKEN + 4;
const RECORD_BYTES: usize = 8 * (REGISTERS + 5 + RAM_WORDS);

/// Runs the cases, each from its own registers and RAM.
pub fn run<'a>(cases: impl IntoIterator<Item = &'a Case>) -> Result<Vec<State>, String> {
    let records: Vec<Vec<u8>> = cases.into_iter().map(record).collect();
    let program = harness()?;
    let input = TempFile::new(&records.concat())?;
    let file =
        File::open(input.path()).map_err(|error| format!("{}: {error}", input.path().display()))?;
    let arguments = ["-B", GUEST_BASE, program.text_path()?];
    let output = QEMU.output(&arguments, Stdio::from(file))?;
    if output.len() != records.len() * RECORD_BYTES {
        return Err(format!(
            "{} answered {} bytes for {} cases",
            QEMU.name,
            output.len(),
            records.len()
        ));
    }
    Ok(output.chunks(RECORD_BYTES).map(state).collect())
}

/// The harness as a program that qemu can run.
fn harness() -> Result<TempFile, String> {
    let source = TempFile::new(HARNESS.as_bytes())?;
    let (object, program) = (TempFile::new(b"")?, TempFile::new(b"")?);
    let high = format!("HIGH={HIGH}");
    let files = ["-o", object.text_path()?, source.text_path()?];
    let arguments = ["-march=rv64g", "-mno-relax", "--defsym", &high];
    AS.output(&[&arguments[..], &files].concat(), Stdio::null())?;
    let files = ["-o", program.text_path()?, object.text_path()?];
    LD.output(&[&SECTIONS[..], &files].concat(), Stdio::null())?;
    Ok(program)
}

fn record(case: &Case) -> Vec<u8> {
    let (mut registers, ram) = (case.registers(), case.ram());
    registers[0] = case.buffer;
    let slot = slot(&case.words);
    let doublewords = |words: Vec<u64>| words.into_iter().flat_map(u64::to_le_bytes);
    let slot = slot.into_iter().flat_map(u32::to_le_bytes);
    doublewords(registers)
        .chain(slot)
        .chain(doublewords(ram))
        .collect()
}

/// The case's words, then a jump that a case ends with, then jumps for branches
/// that are taken.
fn slot(words: &[u32]) -> Vec<u32> {
    let last = words.len() as i64;
    let filling = (last..SLOT_WORDS).map(|place| {
        let end = if place == last { UNTAKEN } else { TAKEN };
        jal(0, end - 4 * place)
    });
    words.iter().copied().chain(filling).collect()
}

fn state(record: &[u8]) -> State {
    let doublewords = record
        .chunks(8)
        .map(|bytes| bytes.try_into().expect("eight bytes"));
    let mut registers: Vec<u64> = doublewords.map(u64::from_le_bytes).collect();
    let ram = registers.split_off(registers.len() - RAM_WORDS);
    registers.truncate(REGISTERS);
    let taken = registers[0] == 1;
    registers[0] = 0;
    State {
        registers,
        ram,
        taken,
    }
}

#[cfg(test)]
mod tests {
    use super::*;
    use crate::asm::{addi, branch, ld, store};
    use crate::manual::case::case;
    use crate::tool::unless_absent;

    #[test]
    fn the_slot_ends_in_jumps() {
        let slot = slot(&[0x13, 0x73]);
        assert_eq!(slot.len(), 10);
        assert_eq!(slot[..4], [0x13, 0x73, jal(0, 32), jal(0, 32)]);
        assert_eq!(slot[9], jal(0, 8));
    }

    #[test]
    fn records_and_states() {
        let case = Case {
            buffer: HIGH,
            ..case(&[0x13], &[(31, 7)], &[(255, 9)])
        };
        let mut record = record(&case);
        assert_eq!(record.len(), RECORD_BYTES);
        assert_eq!(record[..8], HIGH.to_le_bytes());
        record[..8].copy_from_slice(&1u64.to_le_bytes());
        let state = state(&record);
        assert_eq!((state.registers, state.ram), (case.registers(), case.ram()));
        assert!(state.taken);
    }

    /// A case has nothing of the one before it.
    #[test]
    fn cases_are_independent() {
        let stores = case(&[store(3, [31, 0], 2040)], &[(31, 5)], &[]);
        let behind = case(
            &[store(3, [31, 31], 0), ld([1, 31], 0)],
            &[(31, 0x800)],
            &[],
        );
        let empty = case(&[ld([1, 0], 2040), ld([2, 2], 0)], &[(2, 0x800)], &[]);
        let Some(states) = unless_absent(
            "cases_are_independent",
            run(&[stores, behind, empty.clone()]),
        ) else {
            return;
        };
        assert_eq!((states[0].ram[255], states[0].registers[31]), (5, 5));
        assert_eq!((states[1].registers[1], states[1].ram[0]), (0x800, 0));
        let mut registers = empty.registers();
        registers[2] = 0;
        assert_eq!(
            (&states[2].registers, &states[2].ram),
            (&registers, &empty.ram())
        );
    }

    #[test]
    fn ram_at_the_large_address() {
        let words = [ld([1, 1], 8), store(3, [1, 2], -8)];
        let case = Case {
            buffer: HIGH,
            ..case(&words, &[(1, HIGH), (2, HIGH + 0x7ff + 1)], &[(1, 6)])
        };
        let Some(states) = unless_absent("ram_at_the_large_address", run(&[case])) else {
            return;
        };
        assert_eq!((states[0].registers[1], states[0].ram[255]), (6, 6));
    }

    #[test]
    fn branches_and_the_longest_case() {
        let beq = |imm, x1| case(&[branch(0, [1, 0], imm)], &[(1, x1)], &[]);
        let distances = [8, -4, -4096, 4092];
        let mut cases: Vec<Case> = distances.map(|imm| beq(imm, 0)).into();
        cases.extend(distances.map(|imm| beq(imm, 1)));
        cases.push(case(&[addi([1, 1], 1); 8], &[], &[]));
        let Some(states) = unless_absent("branches_and_the_longest_case", run(&cases)) else {
            return;
        };
        let taken: Vec<bool> = states.iter().map(|state| state.taken).collect();
        assert_eq!(taken[..4], [true; 4]);
        assert_eq!(taken[4..], [false; 5]);
        assert_eq!(states[8].registers[1], 8);
    }
}
