//! Cases on which the recorder does not do what the manual says, or of which RV64I
//! says nothing: for every row of docs/DIFFERENCES.md about the interpreter, small
//! ones that show it.

#[cfg(test)]
mod claims;
mod jumps;
mod straight;
mod undefined;

use super::case::{case, Case};
use super::line::Place::{self, Halted, Ram, Register, Row};
use super::line::{differing, undefined as undefined_lines};
use super::qemu;

/// The row of an address that is none of the program.
const NONE: u64 = u64::MAX;

/// `addi x0,x0,0`
const NOP: u32 = 0x0000_0013;
/// `sll x3,x1,x2`, which has six rows.
const SHIFT: u32 = 0x0020_91b3;
/// Different bytes.
const CONTENT: u64 = 0x1122_3344_5566_7788;

/// A case and the place that shows the difference.
struct Difference {
    case: Case,
    place: Place,
    manual: Manual,
}

/// Where what the manual says comes from.
enum Manual {
    /// The words go straight on and need no pc: qemu has executed them.
    Qemu,
    /// What is written here.
    Says(u64),
    /// RV64I does not define the encoding.
    Undefined,
}

use Manual::{Qemu, Says, Undefined};

type Cells<'a, Number> = &'a [(Number, u64)];

/// All rows of the program are executed.
fn shown(
    place: Place,
    manual: Manual,
    words: &[u32],
    registers: Cells<u32>,
    ram: Cells<u64>,
) -> Difference {
    Difference {
        case: case(words, registers, ram),
        place,
        manual,
    }
}

/// The first cycles of a program are executed.
fn after(cycles: u64, place: Place, manual: Manual, words: &[u32]) -> Difference {
    let mut difference = shown(place, manual, words, &[], &[]);
    difference.case.cycles = cycles;
    difference
}

pub fn listing() -> Result<String, String> {
    let differences = all();
    let by_qemu = |difference: &&Difference| matches!(difference.manual, Qemu);
    let asked = differences.iter().filter(by_qemu);
    let states = qemu::run(asked.map(|difference| &difference.case))?;
    let mut states = states.into_iter();
    let lines = differences
        .iter()
        .map(|difference| match difference.manual {
            Undefined => difference.lines(None),
            Says(value) => difference.lines(Some(value)),
            Qemu => {
                let state = states.next().expect("a state for each case that was asked");
                difference.lines(difference.place.in_qemu(&state))
            }
        });
    lines.collect()
}

impl Difference {
    /// The lines of it, where the manual has this value or none.
    fn lines(&self, manual: Option<u64>) -> Result<String, String> {
        let Difference { case, place, .. } = self;
        let refuse = |why: &str| Err(format!("{case:x?}: {place:?} {why}"));
        let Some(reference) = place.in_reference(&case.run_reference().0) else {
            return refuse("is no place of the reference");
        };
        match (&self.manual, manual) {
            (Undefined, _) => Ok(undefined_lines(case, *place, reference)),
            (_, None) => refuse("is no place of qemu"),
            (_, Some(value)) if value == reference => refuse("is the same in the manual"),
            (_, Some(value)) => Ok(differing(case, *place, reference, value)),
        }
    }
}

fn all() -> Vec<Difference> {
    let groups = [
        straight::differences(),
        jumps::differences(),
        undefined::differences(),
    ];
    groups.into_iter().flatten().collect()
}
