//! Expansion, the test of rows, and fresh cursors.

use crate::guarded::Guarded;
use crate::{shift_rows, with, ADDI, ECALL, SLL};
use magnetar_cpu::{expand, is_expansion, start, words};
use magnetar_cpu::{Cursor, Refusal, MAX_PROGRAM_WORDS, MAX_ROWS};

/// All that is lent to an expansion.
#[derive(Clone, Debug, PartialEq)]
struct Lent {
    program: Guarded<u32>,
    rows: Guarded<u64>,
    starts: Guarded<u64>,
    count: Guarded<u64>,
}

impl Lent {
    fn new(program: &[u32], rows: usize, starts: usize) -> Self {
        Lent {
            program: Guarded::new(program),
            rows: Guarded::buffer(rows),
            starts: Guarded::buffer(starts),
            count: Guarded::buffer(1),
        }
    }

    fn expand(&mut self) -> u64 {
        words::expand(
            self.program.words(),
            self.rows.words_mut(),
            self.starts.words_mut(),
            &mut self.count.words_mut()[0],
        )
    }

    /// The answer of a call that must leave every word as it was.
    fn refusal(mut self) -> u64 {
        let before = self.clone();
        let answer = self.expand();
        assert!(self == before, "answer {answer}");
        answer
    }
}

/// `ADDI`, `SLL`, `ECALL` into buffers that are exactly full or longer.
#[test]
fn rows_and_starts() {
    let program = [ADDI, SLL, ECALL];
    let rows = [&[ADDI.into()], &shift_rows()[..], &[ECALL.into()]].concat();
    for more in [0, 1, 30] {
        let mut lent = Lent::new(&program, 8 + more, 3 + more);
        let wanted = Lent {
            rows: lent.rows.clone().after(&rows),
            starts: lent.starts.clone().after(&[0, 1, 7]),
            count: lent.count.clone().after(&[8]),
            ..lent.clone()
        };
        assert_eq!(lent.expand(), 0);
        assert_eq!(lent, wanted);
    }
}

#[test]
fn short_buffers() {
    let program = [ADDI, SLL, ECALL];
    for (rows, starts) in [(7, 3), (8, 2), (0, 3), (8, 0), (0, 0)] {
        assert_eq!(Lent::new(&program, rows, starts).refusal(), 6);
    }
    for (rows, starts) in [(0, 0), (0, 1), (1, 0), (9, 9)] {
        assert_eq!(Lent::new(&[], rows, starts).refusal(), 1);
    }
}

/// The longest program of the most rows, and one word more.
#[test]
fn the_longest_program() {
    let mut program = vec![SLL; MAX_PROGRAM_WORDS];
    let mut lent = Lent::new(&program, MAX_ROWS, MAX_PROGRAM_WORDS);
    assert_eq!(lent.expand(), 0);
    assert_eq!(lent.count, Guarded::new(&[6_291_456]));
    let rows = shift_rows().repeat(MAX_PROGRAM_WORDS);
    assert_eq!(lent.rows, Guarded::new(&rows));
    let starts: Vec<u64> = (0..MAX_PROGRAM_WORDS as u64).map(|word| 6 * word).collect();
    assert_eq!(lent.starts, Guarded::new(&starts));
    let refusal = |program: &[u32], rows, starts| Lent::new(program, rows, starts).refusal();
    assert_eq!(refusal(&program, MAX_ROWS - 1, MAX_PROGRAM_WORDS), 6);
    assert_eq!(refusal(&program, MAX_ROWS, MAX_PROGRAM_WORDS - 1), 6);
    program.push(ADDI);
    assert_eq!(refusal(&program, 0, 0), 2);
    assert_eq!(refusal(&program, MAX_ROWS + 1, MAX_PROGRAM_WORDS + 1), 2);
}

/// Rows and starts in memory of their own, exactly as long as they must be.
#[cfg(feature = "alloc")]
#[test]
fn owned_rows() {
    use magnetar_cpu::Expansion;
    let expansion = Expansion::new(&[ADDI, SLL, ECALL]).expect("accepted");
    let rows = [&[ADDI.into()], &shift_rows()[..], &[ECALL.into()]].concat();
    assert_eq!((expansion.rows, expansion.starts), (rows, vec![0, 1, 7]));
    let mut program = vec![SLL; MAX_PROGRAM_WORDS];
    let longest = Expansion::new(&program).expect("accepted");
    assert_eq!(longest.rows.len(), MAX_ROWS);
    assert_eq!(longest.starts.len(), MAX_PROGRAM_WORDS);
    program.push(ADDI);
    assert_eq!(Expansion::new(&program), Err(Refusal::TooManyRows));
    assert_eq!(Expansion::new(&[]), Err(Refusal::NoRows));
}

/// Slices of Rust that hold nothing point nowhere.
#[test]
fn empty_slices() {
    let (mut rows, mut starts) = ([7; 2], [7; 1]);
    assert_eq!(
        expand(&[], &mut rows, &mut starts),
        Err(Refusal::NoRows),
        "no program"
    );
    assert_eq!(expand(&[], &mut [], &mut []), Err(Refusal::NoRows));
    let short = Err(Refusal::Short);
    assert_eq!(expand(&[ADDI], &mut [], &mut starts), short);
    assert_eq!(expand(&[ADDI], &mut rows, &mut []), short);
    assert_eq!((rows, starts), ([7; 2], [7; 1]));
    assert_eq!(expand(&[ADDI], &mut rows, &mut starts), Ok(1));
    assert_eq!((rows, starts), ([ADDI.into(), 7], [0]));
    assert!(is_expansion(&[]));
    assert_eq!(*start(&[]).image(), [0; Cursor::WORDS]);
}

#[test]
fn the_test_of_rows() {
    let rows = [&[ADDI.into()], &shift_rows()[..], &[ECALL.into()]].concat();
    assert!(is_expansion(&rows));
    for place in 1..6 {
        assert!(!is_expansion(&rows[..1 + place]), "cut off at {place}");
        assert!(!is_expansion(&rows[1 + place..]), "begun at {place}");
    }
    for place in 0..rows.len() {
        let mut damaged = Guarded::new(&rows);
        damaged.words_mut()[place] ^= 1 << 40;
        let before = damaged.clone();
        assert_eq!(words::is_expansion(damaged.words()), 0, "row {place}");
        assert_eq!(damaged, before);
    }
}

/// Every word of the image is written, whatever was there.
#[test]
fn fresh_cursors() {
    for length in [0, 1, 255, 256, 257, 1000] {
        let input: Vec<u64> = (1..=length).map(|word| u64::MAX - word).collect();
        let (input, mut cursor) = (Guarded::new(&input), Guarded::buffer(Cursor::WORDS));
        let (input_before, mut wanted) = (input.clone(), cursor.clone());
        let kept = input.words().len().min(256);
        let ram = Cursor::RAM.start..Cursor::RAM.start + kept;
        *wanted.image_mut() = with(&[]);
        wanted.words_mut()[ram].copy_from_slice(&input.words()[..kept]);
        words::start(input.words(), cursor.image_mut());
        assert_eq!(cursor, wanted, "{length} words");
        assert_eq!(input, input_before);
        assert_eq!(start(input.words()).image()[..], *wanted.words());
    }
}
