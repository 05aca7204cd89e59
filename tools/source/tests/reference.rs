//! What the edits change: the reference is the source with one arm more.

use std::fs;
use std::path::Path;

/// Of an Alu row with funct3 2.
const ARM: [&str; 5] = [
    "                2 => {",
    "                    rec.is_arith = true;",
    "                    rec.is_sub_op = true;",
    "                    val = ((rs1_val as i64) < b_op as i64) as Word;",
    "                }",
];

/// A file of the source as it lies, and as it is compiled.
fn texts(name: &str) -> [String; 2] {
    let directories = [env!("SOURCE_DIRECTORY"), env!("OUT_DIR")];
    directories
        .map(|directory| fs::read_to_string(Path::new(directory).join(name)).expect("a file"))
}

#[test]
fn decoder_and_expander_are_as_they_lie() {
    for name in ["decode.rs", "expand.rs"] {
        let [source, reference] = texts(name);
        assert!(!source.is_empty());
        assert_eq!(reference, source, "{name}");
    }
}

#[test]
fn the_interpreter_has_one_arm_more() {
    let [source, reference] = texts("interp.rs");
    let source: Vec<&str> = source.split('\n').collect();
    let mut reference: Vec<&str> = reference.split('\n').collect();
    let mut pairs = source.iter().zip(&reference);
    let start = pairs.position(|(old, new)| old != new).expect("an edit");
    let added: Vec<&str> = reference.drain(start..start + ARM.len()).collect();
    assert_eq!(added, ARM);
    assert_eq!(reference, source);

    // It is an arm of the match on funct3 of Alu rows.
    let last_above = |text: &str| {
        let lines = source[..start].iter().map(|line| line.trim());
        lines.rev().find(|line| line.starts_with(text))
    };
    assert_eq!(last_above("VirtualKind::"), Some("VirtualKind::Alu => {"));
    assert_eq!(last_above("match "), Some("match row.funct3 {"));
}
