//! Tests that the stored list has what it is meant to have.

use super::{listing, BOUNDARIES, STALE};
use crate::manual::case::RAM_WORDS;
use crate::manual::qemu::HIGH;
use crate::manual::told::{told, Told, AGREEING};
use crate::manual::{stored, MANUAL};
use crate::tool::unless_absent;
use std::collections::HashSet;
use std::sync::LazyLock;

static TOLD: LazyLock<Vec<Told>> = LazyLock::new(|| told("qemu.txt"));

const ARITHMETIC: [&str; 7] = ["add", "sub", "xor", "or", "and", "slt", "sltu"];
const IMMEDIATE: [&str; 6] = ["addi", "xori", "ori", "andi", "slti", "sltiu"];
const SHIFTS: [&str; 3] = ["sll", "srl", "sra"];
const IMMEDIATE_SHIFTS: [&str; 3] = ["slli", "srli", "srai"];
const BRANCHES: [&str; 6] = ["beq", "bne", "blt", "bge", "bltu", "bgeu"];
/// With the number of offsets.
const LOADS: [(&str, u64); 3] = [("lbu", 8), ("lhu", 7), ("ld", 1)];
const STORES: [(&str, u64); 4] = [("sb", 8), ("sh", 7), ("sw", 5), ("sd", 1)];

/// The cases of an instruction.
fn of(mnemonic: &str) -> Vec<&'static Told> {
    let of = TOLD.iter().filter(|told| told.mnemonic() == mnemonic);
    of.collect()
}

/// The numbers of the registers in a role: 0 is rd, 1 and 2 are the sources.
fn role(mnemonic: &str, role: usize) -> HashSet<usize> {
    Told::answers(&of(mnemonic), |told| Some(told.word().registers()[role]))
}

/// Whether an instruction has a case of which this is so.
fn has(mnemonic: &str, so: impl Fn(&Told) -> bool) -> bool {
    of(mnemonic).into_iter().any(so)
}

#[test]
fn the_list_is_what_qemu_gives() {
    let given = unless_absent("the_list_is_what_qemu_gives", listing());
    let Some(list) = given else { return };
    // Not `assert_eq`, which would print both lists.
    assert!(list == stored("qemu.txt"), "another list");
}

/// qemu and the reference agree on every case.
#[test]
fn the_reference_agrees() {
    let list = stored("qemu.txt");
    assert_eq!(MANUAL.wrong_lines(list.as_bytes()), []);
}

#[test]
fn every_agreeing_instruction_and_no_other() {
    let found: HashSet<&str> = TOLD.iter().map(Told::mnemonic).collect();
    assert_eq!(found, AGREEING.split_whitespace().collect());
    assert!((1500..=3000).contains(&TOLD.len()), "{}", TOLD.len());
    assert!(TOLD
        .iter()
        .all(|told| told.letter == 'a' && told.case.words.len() == 1));
}

#[test]
fn register_shifts_have_six_cycles_and_all_else_one() {
    for told in TOLD.iter() {
        let shift = SHIFTS.contains(&told.mnemonic());
        assert_eq!(told.case.cycles, if shift { 6 } else { 1 });
    }
}

#[test]
fn every_register_is_a_destination() {
    let loads = LOADS.map(|(mnemonic, _)| mnemonic);
    let groups = [&ARITHMETIC[..], &IMMEDIATE, &SHIFTS, &IMMEDIATE_SHIFTS];
    for mnemonic in [&groups.concat()[..], &loads, &["lui"]].concat() {
        assert_eq!(role(mnemonic, 0), (0..32).collect(), "{mnemonic}");
    }
}

/// x0 is not the amount of a shift.
#[test]
fn every_register_is_a_source() {
    let loads = LOADS.map(|(mnemonic, _)| mnemonic);
    let stores = STORES.map(|(mnemonic, _)| mnemonic);
    let groups = [&ARITHMETIC[..], &IMMEDIATE, &SHIFTS, &IMMEDIATE_SHIFTS];
    for mnemonic in [&groups.concat()[..], &BRANCHES, &loads, &stores].concat() {
        assert_eq!(role(mnemonic, 1), (0..32).collect(), "rs1 of {mnemonic}");
    }
    for mnemonic in [&ARITHMETIC[..], &BRANCHES, &stores].concat() {
        assert_eq!(role(mnemonic, 2), (0..32).collect(), "rs2 of {mnemonic}");
    }
    for mnemonic in SHIFTS {
        assert_eq!(role(mnemonic, 2), (1..32).collect(), "rs2 of {mnemonic}");
    }
}

#[test]
fn registers_coincide() {
    for mnemonic in [&ARITHMETIC[..], &SHIFTS].concat() {
        let ways = Told::answers(&of(mnemonic), |told| {
            let [d, left, right] = told.word().registers();
            (d > 0 && left > 0).then_some([d == left, d == right, left == right])
        });
        // All different, two the same in three ways, all the same.
        assert_eq!(ways.len(), 5, "{mnemonic}");
    }
    for mnemonic in [&IMMEDIATE[..], &IMMEDIATE_SHIFTS, &["lbu", "lhu", "ld"]].concat() {
        let same = |told: &Told| {
            let [d, left, _] = told.word().registers();
            d == left && d > 0
        };
        assert!(has(mnemonic, same), "{mnemonic}");
    }
    for mnemonic in [&BRANCHES[..], &["sb", "sh", "sw", "sd"]].concat() {
        let same = |told: &Told| {
            let [_, left, right] = told.word().registers();
            left == right && left > 0
        };
        assert!(has(mnemonic, same), "{mnemonic}");
    }
}

#[test]
fn every_pair_of_boundaries() {
    for mnemonic in [&ARITHMETIC[..], &BRANCHES].concat() {
        let pairs = Told::answers(&of(mnemonic), |told| Some(told.sources()));
        for left in BOUNDARIES {
            let missing = BOUNDARIES
                .into_iter()
                .find(|&right| !pairs.contains(&(left, right)));
            assert_eq!(missing, None, "{mnemonic} of {left:x}");
        }
        assert!(pairs.len() > 81, "{mnemonic}");
    }
}

#[test]
fn every_boundary_with_every_immediate() {
    for mnemonic in IMMEDIATE {
        let pairs = Told::answers(&of(mnemonic), |told| {
            Some((told.sources().0, told.word().imm()))
        });
        for value in BOUNDARIES {
            let missing = [-2048, -1, 0, 1, 2047]
                .into_iter()
                .find(|&imm| !pairs.contains(&(value, imm)));
            assert_eq!(missing, None, "{mnemonic} of {value:x}");
        }
    }
}

#[test]
fn comparisons_give_0_and_1() {
    for mnemonic in ["slt", "sltu", "slti", "sltiu"] {
        let values = Told::answers(&of(mnemonic), |told| {
            let result = told.results.first()?;
            result.rsplit(' ').next().map(String::from)
        });
        assert_eq!(values, ["0", "1"].map(String::from).into(), "{mnemonic}");
    }
}

#[test]
fn amounts_of_shifts() {
    for (mnemonic, amounts) in [("slli", 64), ("srli", 64), ("srai", 32)] {
        let found = Told::answers(&of(mnemonic), |told| Some(told.word().imm() & 0x3f));
        assert_eq!(found, (0..amounts).collect(), "{mnemonic}");
    }
    for mnemonic in SHIFTS {
        let amount = |told: &Told| told.sources().1;
        for wanted in [0, 1, 31, 32, 62, 63, 64, 1 << 32, u64::MAX] {
            assert!(
                has(mnemonic, |told| amount(told) == wanted),
                "{mnemonic} by {wanted:x}"
            );
        }
        let of_x0 = |told: &Told| told.word().registers()[1] == 0 && amount(told) & 0x3f > 0;
        assert!(has(mnemonic, of_x0), "{mnemonic}");
        let both_signs = Told::answers(&of(mnemonic), |told| Some(told.sources().0 >> 63));
        assert_eq!(both_signs.len(), 2, "{mnemonic}");
    }
}

#[test]
fn addresses_of_loads_and_stores() {
    for (mnemonic, offsets) in [&LOADS[..], &STORES].concat() {
        let address = |told: &Told| told.sources().0.wrapping_add_signed(told.word().imm());
        let found = Told::answers(&of(mnemonic), |told| Some(address(told) % 8));
        assert_eq!(found, (0..offsets).collect(), "{mnemonic}");
        let words = Told::answers(&of(mnemonic), |told| {
            Some(address(told) / 8 % RAM_WORDS as u64)
        });
        assert!(
            [0, 1, 100, 255].iter().all(|word| words.contains(word)),
            "{mnemonic}"
        );
        let high = |told: &Told| address(told) & !0x7ff == HIGH;
        assert!(has(mnemonic, high), "{mnemonic}");
        // Every address is in one of the two places that RAM has in qemu.
        assert!(of(mnemonic)
            .into_iter()
            .all(|told| high(told) || address(told) < 0x800));
        let wraps = |told: &Told| told.sources().0 >> 63 == 1 && address(told) < 0x800;
        assert!(has(mnemonic, wraps), "{mnemonic}");
        let immediates = Told::answers(&of(mnemonic), |told| Some(told.word().imm()));
        assert!(
            [-2048, -1, 0, 2047]
                .iter()
                .all(|imm| immediates.contains(imm)),
            "{mnemonic}"
        );
    }
}

#[test]
fn branches_are_taken_and_not_and_go_both_ways() {
    for mnemonic in BRANCHES {
        let results = Told::answers(&of(mnemonic), |told| Some(told.results.concat()));
        assert_eq!(results, ["t 0", "t 1"].map(String::from).into());
        let backward = Told::answers(&of(mnemonic), |told| {
            let taken = told.results == ["t 1"];
            taken.then_some(told.case.words[0] >> 31)
        });
        assert_eq!(backward.len(), 2, "{mnemonic}");
    }
    let others = TOLD
        .iter()
        .filter(|told| !BRANCHES.contains(&told.mnemonic()));
    for told in others {
        assert!(told.results.iter().all(|line| !line.starts_with('t')));
    }
}

#[test]
fn bits_of_lui() {
    let uppers = Told::answers(&of("lui"), |told| Some(told.case.words[0] >> 12));
    assert!(uppers.iter().all(|upper| upper >> 19 == 0));
    let bits = (0..19).map(|bit| 1 << bit);
    assert!(bits
        .chain([0, 0x7_ffff])
        .all(|upper| uppers.contains(&upper)));
}

/// A destination that is not x0 changes, also where the result is zero, and no
/// other register does; only stores change RAM, and one word of it.
#[test]
fn what_changes() {
    for told in TOLD.iter() {
        let mnemonic = told.mnemonic();
        let store = STORES.iter().any(|&(name, _)| name == mnemonic);
        let [d, ..] = told.word().registers();
        let expected = match d {
            0 => String::new(),
            _ => format!("g {d:x} "),
        };
        let result = told.results.concat();
        if store {
            assert!(told.results.len() <= 1 && result.split(' ').next() != Some("g"));
        } else if !BRANCHES.contains(&mnemonic) && told.case.registers()[d] == STALE {
            assert!(
                told.results.len() == 1 && result.starts_with(&expected),
                "{result}"
            );
        } else if !BRANCHES.contains(&mnemonic) {
            assert!(
                result.is_empty() || result.starts_with(&expected),
                "{result}"
            );
        }
    }
    let zero = |told: &Told| told.results.iter().any(|line| line.ends_with(" 0"));
    for mnemonic in ARITHMETIC {
        assert!(has(mnemonic, zero), "{mnemonic}");
    }
}
