//! What has to be among the cycles of the list of calls.

use super::told::{answers, cycles, Cycle};
use super::VALUES;
use crate::forms::{Format, FORMS};
use magnetar_reference::expand::{RomRow, VirtualKind};
use std::collections::HashSet;

#[test]
fn every_form_is_run() {
    for form in &FORMS {
        let words = answers(|cycle| (form.fits(cycle.row.raw)).then_some(cycle.row.raw));
        let least = match form.format {
            Format::System => 1,
            Format::Fence => 2,
            _ => 6,
        };
        assert!(words.len() >= least, "{} {}", form.mnemonic, words.len());
    }
}

#[test]
fn every_funct3_is_run() {
    let found = answers(|cycle| Some((cycle.opcode(), cycle.funct3())));
    for opcode in [0x03, 0x13, 0x1b, 0x23, 0x33, 0x3b, 0x63] {
        for funct3 in 0..8 {
            assert!(found.contains(&(opcode, funct3)), "{opcode:x} {funct3}");
        }
    }
}

#[test]
fn words_of_no_instruction_halt() {
    let system = answers(|cycle| (cycle.row.kind == VirtualKind::System).then_some(cycle.row.raw));
    let csr = |&&word: &&u32| word & 0x7f == 0x73 && word & 0x3000 != 0;
    assert!(system.iter().filter(csr).count() >= 2);
    let known = [0x0f, 0x73];
    let invalid = system
        .iter()
        .filter(|&word| !known.contains(&(word & 0x7f)));
    assert!(invalid.count() >= 6);
    assert!(system.contains(&0) && system.contains(&u32::MAX));
}

#[test]
fn boundary_values_are_operands() {
    let operands = |opcode, funct3: u32, word: usize| {
        answers(move |cycle| {
            let asked = cycle.opcode() == opcode && cycle.funct3() == funct3;
            asked.then_some(cycle.record[word])
        })
    };
    let register = [0, 2, 3, 4, 6, 7].map(|funct3| (0x33, funct3));
    let branches = [0, 1, 4, 5, 6, 7].map(|funct3| (0x63, funct3));
    for (opcode, funct3) in register.into_iter().chain(branches) {
        for word in [1, 2] {
            let found = operands(opcode, funct3, word);
            let all = VALUES.iter().all(|value| found.contains(value));
            assert!(all, "{opcode:x} {funct3} {word}");
        }
    }
    for funct3 in 0..8 {
        let found = operands(0x13, funct3, 1);
        assert!(VALUES.iter().all(|value| found.contains(value)), "{funct3}");
    }
}

#[test]
fn immediates_are_at_their_bounds() {
    for (opcode, least, most) in [
        (0x13, -2048, 2047),
        (0x63, -4096, 4094),
        (0x03, -2048, 2047),
    ] {
        let found = answers(|cycle| (cycle.opcode() == opcode).then_some(cycle.imm()));
        for imm in [least, most, 0] {
            assert!(found.contains(&imm), "{opcode:x} {imm}");
        }
    }
}

/// Only 0x20 in the place of funct7 keeps the sign, so that an amount from 32 on
/// loses it.
#[test]
fn immediate_shifts_are_of_both_signs() {
    for opcode in [0x13, 0x1b] {
        let found = answers(|cycle| {
            let right = cycle.opcode() == opcode && cycle.funct3() == 5;
            right.then_some((cycle.row.raw >> 25, cycle.record[1] >> 63))
        });
        for sign in [0, 1] {
            assert!(found.contains(&(0, sign)) && found.contains(&(0x20, sign)));
        }
        assert!(opcode == 0x1b || found.contains(&(0x21, 1)));
    }
    let amounts = answers(|cycle| {
        let shift = cycle.opcode() == 0x13 && matches!(cycle.funct3(), 1 | 5);
        let sign = cycle.record[1] >> 63;
        shift.then_some((cycle.funct3(), cycle.imm() & 63, sign))
    });
    for funct3 in [1, 5] {
        for amount in [0, 1, 31, 32, 33, 63] {
            for sign in [0, 1] {
                assert!(amounts.contains(&(funct3, amount, sign)), "{amount}");
            }
        }
    }
}

/// What would make a subtraction of a register form.
#[test]
fn additions_are_not_taken_for_subtractions() {
    for opcode in [0x13, 0x1b, 0x3b] {
        let found = answers(|cycle| {
            let asked = cycle.opcode() == opcode && cycle.funct3() == 0;
            (asked && cycle.row.raw >> 25 == 0x20).then_some(cycle.record[1])
        });
        assert!(!found.is_empty(), "{opcode:x}");
    }
}

#[test]
fn upper_immediates_have_bit_31_set_and_clear() {
    for opcode in [0x37, 0x17] {
        let found = answers(|cycle| {
            let zero = cycle.row.rd == 0;
            (cycle.opcode() == opcode).then_some((cycle.row.raw >> 31, zero))
        });
        assert_eq!(found.len(), 4, "{opcode:x}");
    }
}

/// sll, srl or sra by the manual's funct7.
fn shift_form(row: &RomRow) -> Option<u32> {
    let form = row.raw & 0xfe00_707f;
    [0x1033, 0x5033, 0x4000_5033]
        .contains(&form)
        .then_some(form)
}

#[test]
fn shifts_are_by_every_class_of_amount() {
    for form in [0x1033, 0x5033, 0x4000_5033] {
        let amounts = answers(|cycle| {
            let first = cycle.stage() == Some(0) && shift_form(cycle.row) == Some(form);
            first.then_some(cycle.record[2])
        });
        let single = [0, 1, 2, 4, 8, 16, 32, 63];
        assert!(single.iter().all(|amount| amounts.contains(amount)));
        // Bits above the amount: the amount is zero, or not.
        assert!(amounts.iter().any(|amount| amount % 64 == 0 && *amount > 0));
        assert!(amounts.iter().any(|amount| amount % 64 > 0 && *amount > 63));
        // Each stage with its bit set and clear.
        let stages = answers(|cycle| {
            let stage = cycle.stage()?;
            let bit = cycle.record[2] >> stage & 1;
            (shift_form(cycle.row) == Some(form)).then_some((stage, bit))
        });
        assert_eq!(stages.len(), 12);
    }
    let stray = answers(|cycle| {
        (cycle.stage().is_some() && shift_form(cycle.row).is_none()).then_some(cycle.row.raw >> 25)
    });
    assert!(stray.len() >= 4);
}

#[test]
fn shifts_have_x0_in_every_place() {
    let registers = |row: &RomRow| [row.rd, row.rs1, row.rs2];
    let last = |cycle: &Cycle| match cycle.stage() {
        Some(5) => shift_form(cycle.row),
        _ => None,
    };
    let zeros = answers(|cycle| {
        Some((
            last(cycle)?,
            registers(cycle.row).map(|register| register == 0),
        ))
    });
    assert_eq!(zeros.len(), 3 * 8);
    let same = answers(|cycle| {
        let [d, left, right] = registers(cycle.row);
        let form = last(cycle)?;
        (d != 0).then_some((form, d == left, d == right))
    });
    assert_eq!(same.len(), 3 * 4);
}

/// The values of x0, not zero, that rows of an opcode read as rs1 (word 1) or as
/// rs2 (word 2). Shift rows count by themselves.
fn cell_0(opcode: u32, shifts: bool, word: usize) -> HashSet<u64> {
    answers(|cycle| {
        let register = [cycle.row.rs1, cycle.row.rs2][word - 1];
        let asked = cycle.opcode() == opcode && cycle.stage().is_some() == shifts;
        let value = cycle.record[word];
        (asked && register == 0 && value != 0).then_some(value)
    })
}

#[test]
fn cell_0_is_read_after_shifts() {
    for opcode in [0x33, 0x13, 0x3b, 0x03, 0x23, 0x63, 0x67] {
        assert!(cell_0(opcode, false, 1).len() >= 3, "{opcode:x}");
    }
    for opcode in [0x33, 0x23, 0x63] {
        assert!(cell_0(opcode, false, 2).len() >= 3, "{opcode:x}");
    }
    for word in [1, 2] {
        assert!(cell_0(0x33, true, word).len() >= 3, "{word}");
    }
}

#[test]
fn conditions_hold_and_do_not() {
    let found = answers(|cycle| {
        (cycle.row.kind == VirtualKind::Branch).then_some((cycle.funct3(), cycle.flag(1)))
    });
    for funct3 in 0..8 {
        assert!(found.contains(&(funct3, false)), "{funct3}");
        let defined = !matches!(funct3, 2 | 3);
        assert_eq!(found.contains(&(funct3, true)), defined, "{funct3}");
    }
}

#[test]
fn jumps_go_into_shifts() {
    let mut found = HashSet::new();
    for (list, cycle) in cycles().filter(|(_, cycle)| cycle.jumps()) {
        let target = &list.rows[cycle.record[11] as usize];
        if let VirtualKind::ShiftStage { stage } = target.kind {
            found.insert((cycle.opcode(), stage));
        }
    }
    for opcode in [0x63, 0x6f, 0x67] {
        for stage in 1..6 {
            assert!(found.contains(&(opcode, stage)), "{opcode:x} {stage}");
        }
    }
}

#[test]
fn targets_are_of_every_class() {
    for opcode in [0x63, 0x6f] {
        let asked = |cycle: &Cycle| cycle.opcode() == opcode && cycle.jumps();
        let distances = answers(|cycle| asked(cycle).then(|| cycle.imm()));
        for distance in [-2, -6, 2, 6, 0, 4, -4] {
            assert!(distances.contains(&distance), "{opcode:x} {distance}");
        }
        // Below row 0, and exactly row 0 by a negative distance.
        let below =
            answers(|cycle| (asked(cycle) && cycle.far_target() < 0).then_some(cycle.record[0]));
        assert!(below.len() >= 3, "{opcode:x}");
        // Where a quarter that is rounded down would lead elsewhere.
        let rounded = answers(|cycle| {
            let down = cycle.record[0] as i64 + cycle.imm().div_euclid(4);
            let differs = down.max(0) != cycle.far_target().max(0);
            (asked(cycle) && differs).then_some(cycle.imm())
        });
        assert!(rounded.len() >= 2, "{opcode:x}");
        let beyond = cycles()
            .filter(|(list, cycle)| asked(cycle) && cycle.far_target() >= list.rows.len() as i64);
        assert!(beyond.count() >= 3, "{opcode:x}");
    }
}

#[test]
fn links_are_written_or_not() {
    let found = answers(|cycle| {
        let jump = cycle.row.kind == VirtualKind::Jump;
        jump.then_some((cycle.opcode(), cycle.row.rd == 0))
    });
    assert_eq!(found.len(), 4);
    let own = answers(|cycle| {
        let own = cycle.opcode() == 0x67 && cycle.row.rd != 0 && cycle.row.rd == cycle.row.rs1;
        own.then_some(cycle.record[1])
    });
    assert!(own.len() >= 3);
}

#[test]
fn register_jumps_wrap() {
    let wrapped =
        answers(|cycle| (cycle.opcode() == 0x67 && cycle.wraps()).then_some(cycle.imm() < 0));
    assert_eq!(wrapped.len(), 2);
    let low_bits = answers(|cycle| {
        let sum = cycle.record[1].wrapping_add_signed(cycle.imm());
        (cycle.opcode() == 0x67).then_some(sum % 4)
    });
    assert_eq!(low_bits.len(), 4);
    let high = answers(|cycle| {
        let sum = cycle.record[1].wrapping_add_signed(cycle.imm());
        (cycle.opcode() == 0x67 && !cycle.wraps()).then_some(sum >> 63)
    });
    assert_eq!(high.len(), 2);
}

#[test]
fn memory_is_accessed_by_every_width_at_every_offset() {
    let found = answers(|cycle| {
        let offset = cycle.record[16] & 0xff;
        matches!(cycle.opcode(), 0x03 | 0x23).then_some((cycle.opcode(), cycle.funct3(), offset))
    });
    assert_eq!(found.len(), 2 * 8 * 8);
    // The word that is stored into is not all zero, and neither is what is stored.
    let stored = answers(|cycle| {
        let full = cycle.record[8] != 0 && cycle.record[10] != 0;
        let offset = cycle.record[16] & 0xff;
        (cycle.opcode() == 0x23 && full).then_some((cycle.funct3(), offset))
    });
    assert!(stored.len() >= 8 * 7, "{}", stored.len());
}

#[test]
fn addresses_wrap_and_fall_on_the_last_word() {
    for opcode in [0x03, 0x23] {
        for funct3 in 0..8 {
            let asked = |cycle: &Cycle| cycle.opcode() == opcode && cycle.funct3() == funct3;
            let last = answers(|cycle| {
                (asked(cycle) && cycle.record[6] == 255).then_some(cycle.record[14])
            });
            assert!(last.len() >= 3, "{opcode:x} {funct3}");
            let wrapped =
                answers(|cycle| (asked(cycle) && cycle.wraps()).then_some(cycle.record[14]));
            assert!(wrapped.len() >= 2, "{opcode:x} {funct3}");
            // Beyond RAM without a wrap of the sum.
            let beyond = answers(|cycle| {
                (asked(cycle) && cycle.record[14] >= 2048).then_some(cycle.record[14])
            });
            assert!(beyond.len() >= 3, "{opcode:x} {funct3}");
        }
    }
}

#[test]
fn loads_and_alu_rows_write_to_x0() {
    let found = answers(|cycle| (cycle.flag(0) && cycle.row.rd == 0).then_some(cycle.opcode()));
    for opcode in [0x03, 0x13, 0x1b, 0x33, 0x3b, 0x37, 0x17] {
        assert!(found.contains(&opcode), "{opcode:x}");
    }
}
