//! Tests that the stored list has what it is meant to have.

use super::{all, listing, shown, Halted, Manual, Register, Row, NOP};
use crate::forms::FORMS;
use crate::manual::told::{told, Fields, Told, AGREEING};
use crate::manual::{stored, MANUAL};
use crate::tool::unless_absent;
use std::collections::HashSet;
use std::sync::LazyLock;

static TOLD: LazyLock<Vec<Told>> = LazyLock::new(|| told("differences.txt"));

/// The cases that begin with a letter.
fn of(letter: char) -> Vec<&'static Told> {
    let of = TOLD.iter().filter(|told| told.letter == letter);
    of.collect()
}

#[test]
fn the_list_is_what_qemu_the_table_and_the_reference_give() {
    let test = "the_list_is_what_qemu_the_table_and_the_reference_give";
    let Some(list) = unless_absent(test, listing()) else {
        return;
    };
    assert_eq!(list, stored("differences.txt"));
}

#[test]
fn the_reference_has_what_is_said_of_it() {
    let list = stored("differences.txt");
    assert_eq!(MANUAL.wrong_lines(list.as_bytes()), []);
}

/// Words of RV64I differ, others are undefined.
#[test]
fn undefined_are_words_without_a_form() {
    let defined = |told: &Told| {
        let mut words = told.case.words.iter();
        words.all(|&word| Fields(word).mnemonic().is_some())
    };
    assert!(of('d').into_iter().all(defined));
    assert!(!of('u').into_iter().any(defined));
    assert_eq!(of('d').len() + of('u').len(), TOLD.len());
}

/// Every instruction is in one of the two lists.
#[test]
fn every_instruction_that_does_not_agree() {
    let words = of('d').into_iter().flat_map(|told| &told.case.words);
    let found: HashSet<&str> = words.filter_map(|&word| Fields(word).mnemonic()).collect();
    let agreeing: HashSet<&str> = AGREEING.split_whitespace().collect();
    let others = FORMS.iter().map(|form| form.mnemonic);
    let others: Vec<&str> = others.filter(|name| !agreeing.contains(name)).collect();
    assert_eq!((agreeing.len(), others.len()), (33, 19));
    let missing = others.into_iter().find(|name| !found.contains(name));
    assert_eq!(missing, None);
}

/// Straight code that needs no pc is executed by qemu.
#[test]
fn the_manual_is_asked_where_it_can_be() {
    // Jumps, and what needs the environment or the pc.
    const NOT_ASKED: &str = "jal jalr beq auipc ecall ebreak";
    for difference in all() {
        let case = difference.case;
        let jumps = case.words.iter().any(|&word| {
            let mnemonic = Fields(word).mnemonic().unwrap_or("");
            NOT_ASKED.split(' ').any(|name| name == mnemonic)
        });
        // Cells that the manual lacks, and the row behind the last.
        let lacking = case.words == [0x0050_0013] || case.words == [0x0000_0013];
        let shift = case.words == [0x0020_91b3];
        match difference.manual {
            Manual::Qemu => assert!(!jumps, "{case:x?}"),
            Manual::Says(_) => assert!(jumps || lacking || shift, "{case:x?}"),
            Manual::Undefined => {}
        }
    }
}

#[test]
fn what_is_no_difference_is_refused() {
    let lines = |place, value| shown(place, Manual::Says(0), &[NOP], &[(1, 5)], &[]).lines(value);
    let refused = [
        (Register(1), Some(5), "is the same in the manual"),
        (Register(64), Some(5), "is no place of the reference"),
        (Row, None, "is no place of qemu"),
    ];
    for (place, value, why) in refused {
        assert!(lines(place, value).unwrap_err().ends_with(why), "{why}");
    }
    assert_eq!(
        lines(Halted, Some(1)),
        Ok("d 1 1\nw 13\nx 1 5\nh 0 1\n".to_string())
    );
}

/// What docs/DIFFERENCES.md and 01 give as numbers.
#[test]
fn known_differences() {
    let known = [
        // M2, M3, M4, M5, M6, M7 and M8 of 01, with the manual's side
        "d 1 1\nw 800000b7\ng 1 80000000 ffffffff80000000\n",
        "d 1 1\nw 705083\nm 0 1122334455667788\ng 1 8811 11\n",
        "d 1 1\nw 1013a3\nx 1 abcd\nr 1 0 ab\n",
        "d 1 6\nw 2091b3\nx 1 1\nx 2 3\ng 0 8 0\n",
        "d 2 2\nw 13\nw fe0008e3\np 0 ffffffffffffffff\n",
        "d 2 2\nw 13\nw fe000fe3\np 1 ffffffffffffffff\n",
        "d 1 1\nw 4200d093\nx 1 8000000000000000\ng 1 80000000 ffffffff80000000\n",
        "d 1 1\nw 1080bb\nx 1 1\ng 1 1 2\n",
        "d 1 1\nw 83\nm 0 80\ng 1 80 ffffffffffffff80\n",
        "d 1 1\nw 402083\nm 0 1\ng 1 1 0\n",
        "d 1 1\nw 103083\nm 0 1122334455667788\ng 1 1122334455667788 11223344556677\n",
        "d 2 7\nw 2091b3\nw 97\ng 1 18 4\n",
        "d 2 7\nw 2091b3\nw ef\ng 1 1c 8\n",
        "d 3 1\nw 463\nw 2091b3\nw 73\np 2 7\n",
        "d 2 1\nw 100006f\nw 13\np 0 ffffffffffffffff\n",
        "d 1 1\nw 200067\np 0 ffffffffffffffff\n",
        "d 1 1\nw 13\np 0 ffffffffffffffff\n",
        "d 1 1\nw ff0000f\nh 1 0\n",
        "d 1 1\nw 500013\ng 20 5 0\n",
        "d 2 7\nw 2091b3\nw 213\nx 1 1\nx 2 3\ng 4 8 0\n",
        "d 1 6\nw 90b3\nx 1 2\ng 1 800 2\n",
        "u 1 1\nw 2208133\nx 1 6\nx 2 3\ng 2 9\n",
    ];
    let list = stored("differences.txt");
    for case in known {
        assert!(list.contains(case), "{case}");
    }
}

/// Opcode and funct3 of what RV64I does not define.
#[test]
fn every_kind_of_undefined_encoding() {
    let found = Told::answers(&of('u'), |told| {
        let word = told.case.words[0];
        Some((word & 0x7f, word >> 12 & 7))
    });
    let reserved = [2, 3, 4, 6, 7];
    let wanted = [
        (0x0f, 1),
        (0x73, 2),
        (0x73, 0),
        (0, 0),
        (0x7f, 7),
        (0x03, 7),
        (0x13, 1),
        (0x1b, 1),
        (0x3b, 0),
    ];
    let wanted = wanted.into_iter();
    let wanted = wanted.chain(reserved.map(|funct3| (0x1b, funct3)));
    let wanted = wanted.chain(reserved.map(|funct3| (0x3b, funct3)));
    let wanted = wanted.chain([4, 5, 6, 7].map(|funct3| (0x23, funct3)));
    let wanted = wanted.chain([(0x63, 2), (0x63, 3), (0x67, 1), (0x67, 7)]);
    let wanted = wanted.chain([0, 1, 2, 5, 6, 7].map(|funct3| (0x33, funct3)));
    assert_eq!(found, wanted.collect());
}
