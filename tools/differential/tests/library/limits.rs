//! The longest programs, and buffers that are exactly full, one short or empty.

use differential::{check, Expanding, Judging, Lend};
use differential::{
    ordinary_word, program, register_shift, stage_word, Expansion, Rng, ADDI, SLL, STAGES,
};
use magnetar_cpu::{expand, Refusal, MAX_PROGRAM_WORDS};

/// The answer, everything compared, for buffers of these lengths.
fn answer(program: &[u32], expansion: &Expansion, rows: usize, starts: usize) -> u64 {
    let expanding = Expanding::new(program, expansion, rows, starts, &mut Rng::new(3));
    match check(expanding, Expanding::library) {
        Ok((answer, _)) => answer,
        Err(error) => panic!("{rows} rows, {starts} starts: {error}"),
    }
}

/// The library's verdict on rows, everything compared.
fn verdict(rows: &[u64]) -> bool {
    match check(Judging::new(rows), Judging::library) {
        Ok((answer, _)) => answer == 1,
        Err(error) => panic!("{} rows: {error}", rows.len()),
    }
}

/// Exactly full is accepted; one short or empty is not.
fn check_edges(program: &[u32], full: usize) {
    let expansion = Expansion::of(program);
    let words = program.len();
    assert_eq!(expansion.rows.len(), full);
    assert_eq!(answer(program, &expansion, full, words), 0);
    for rows in [0, full - 1] {
        assert_eq!(answer(program, &expansion, rows, words), 6);
    }
    for starts in [0, words - 1] {
        assert_eq!(answer(program, &expansion, full, starts), 6);
    }
    assert_eq!(answer(program, &expansion, 0, 0), 6);
    assert!(verdict(&expansion.rows));
}

#[test]
fn short_programs() {
    check_edges(&[ADDI], 1);
    check_edges(&[SLL], 6);
    check_edges(&[ADDI, SLL, ADDI], 8);
}

#[test]
fn the_longest_program_of_ordinary_words() {
    let program = program(MAX_PROGRAM_WORDS, &mut Rng::new(4), ordinary_word);
    check_edges(&program, 1_048_576);
}

#[test]
fn the_longest_program_of_register_shifts() {
    let program = program(MAX_PROGRAM_WORDS, &mut Rng::new(5), register_shift);
    check_edges(&program, 6_291_456);
}

#[test]
fn no_words() {
    let expansion = Expansion::of(&[]);
    for (rows, starts) in [(0, 0), (0, 1), (1, 0), (9, 9)] {
        assert_eq!(answer(&[], &expansion, rows, starts), 1);
    }
}

#[test]
fn one_word_too_many() {
    let program = program(MAX_PROGRAM_WORDS + 1, &mut Rng::new(6), ordinary_word);
    let expansion = Expansion::of(&program);
    let words = program.len();
    for (rows, starts) in [(words, words), (0, 0), (words - 1, words)] {
        assert_eq!(answer(&program, &expansion, rows, starts), 2);
    }
}

/// Rows may be the expansion of a program that is itself too long.
#[test]
fn rows_have_no_limit() {
    let mut rows = vec![u64::from(ADDI); STAGES * MAX_PROGRAM_WORDS + 1];
    assert!(verdict(&rows));
    rows.push(stage_word(ADDI, 1));
    assert!(!verdict(&rows));
    let mut rows = Expansion::of(&vec![SLL; MAX_PROGRAM_WORDS + 1]).rows;
    assert!(verdict(&rows));
    rows.pop();
    assert!(!verdict(&rows));
}

#[test]
fn the_safe_form_gives_counts_and_refusals() {
    let (mut rows, mut starts) = ([0; 8], [0; 3]);
    let program = [ADDI, SLL, ADDI];
    assert_eq!(expand(&program, &mut rows, &mut starts), Ok(8));
    assert_eq!(starts, [0, 1, 7]);
    assert_eq!(expand(&[], &mut [], &mut []), Err(Refusal::NoRows));
    let refused = expand(&program, &mut rows[1..], &mut starts);
    assert_eq!(refused, Err(Refusal::Short));
    let long = vec![ADDI; MAX_PROGRAM_WORDS + 1];
    assert_eq!(expand(&long, &mut [], &mut []), Err(Refusal::TooManyRows));
    assert!(Refusal::TooManyRows.to_string().contains("1048576"));
}
