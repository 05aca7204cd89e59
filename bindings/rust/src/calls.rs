//! The calls, in safe forms.

#![forbid(unsafe_code)]

use crate::refusal::result;
use crate::{records, words, Cursor, Records, Refusal, Stop, RECORD_WORDS};

/// The most rows that one program word gives.
pub const ROWS_PER_WORD: usize = 6;
/// The longest program that is accepted.
pub const MAX_PROGRAM_WORDS: usize = 1 << 20;
/// The most rows that are accepted: those of the longest program, all register
/// shifts.
pub const MAX_ROWS: usize = ROWS_PER_WORD * MAX_PROGRAM_WORDS;
/// The most that a cursor's cycles and the length of a segment may be together.
pub const MAX_TOTAL_CYCLES: u64 = 1 << 62;
/// The most cycles that [`execute`] can be given.
pub const MAX_EXECUTE_CYCLES: u64 = 1 << 32;

/// Expands `program` into row words, raw + 2^32 × stage, and gives their count.
///
/// A register shift becomes six rows, every other word one; so `ROWS_PER_WORD *
/// program.len()` places are always enough. The row words go to the first places
/// of `rows`, and the row position where each instruction begins to the first
/// places of `starts`; the places after them are left alone. `Expansion::new` of
/// the feature `alloc` does the same in memory of its own.
///
/// # Errors
///
/// Both buffers are left as they were. Lowest number first:
/// - [`Refusal::NoRows`], 1: the program is empty.
/// - [`Refusal::TooManyRows`], 2: it has over [`MAX_PROGRAM_WORDS`] words.
/// - [`Refusal::Short`], 6: `rows` is shorter than the expansion, or `starts`
///   than the program.
///
/// # Panics
///
/// If the library's answer is none of its numbers.
pub fn expand(program: &[u32], rows: &mut [u64], starts: &mut [u64]) -> Result<usize, Refusal> {
    let mut count = 0;
    let answer = words::expand(program, rows, starts, &mut count);
    result("magnetar_expand", answer, &Refusal::EXPAND)?;
    Ok(usize::try_from(count).expect("a count of rows in memory"))
}

/// Whether the rows are the expansion of a program, of any length: no rows are
/// the expansion of no words. Nothing is refused and nothing is written.
///
/// # Panics
///
/// If the library's answer is neither 0 nor 1.
pub fn is_expansion(rows: &[u64]) -> bool {
    yes_or_no("magnetar_is_expansion", words::is_expansion(rows))
}

/// A fresh cursor: all zero, with the input in RAM from its first word on. Input
/// past the 256 words of RAM is ignored. Nothing is refused.
///
/// # Panics
///
/// If the library is of another version: [`cursor_words`].
pub fn start(input: &[u64]) -> Cursor {
    let mut image = [0; Cursor::WORDS];
    words::start(input, &mut image);
    Cursor::new(image)
}

/// Runs `length` cycles, live ones until the machine halts and padding cycles
/// after that, and moves the cursor on.
///
/// The records go to the first `RECORD_WORDS * length` places of `records`; the
/// places after them are left alone. A length of 0 needs no places.
///
/// # Errors
///
/// Cursor and records are left as they were. Lowest number first:
/// - [`Refusal::NoRows`], 1: there are no rows.
/// - [`Refusal::TooManyRows`], 2: there are over [`MAX_ROWS`].
/// - [`Refusal::NoExpansion`], 3: they are not the expansion of a program.
/// - [`Refusal::OutsideRows`], 4: micro_pc or next_fetch is not below the row
///   count.
/// - [`Refusal::TooManyCycles`], 5: the cursor's cycles and `length` are over
///   [`MAX_TOTAL_CYCLES`] together, also on a halted machine and at length 0.
/// - [`Refusal::Short`], 6: `records` has fewer than 17 words a cycle.
///
/// # Panics
///
/// If the library's answer is none of its numbers, or if the library is of another
/// version: [`cursor_words`].
pub fn segment(
    rows: &[u64],
    cursor: &mut Cursor,
    length: u64,
    records: &mut [u64],
) -> Result<(), Refusal> {
    let answer = words::segment(rows, cursor.image_mut(), length, records);
    result("magnetar_segment", answer, &Refusal::SEGMENT)
}

/// Runs `length` padding cycles, also on a machine that is still live. Each
/// shows row next_fetch and writes the output into that row's destination; the
/// cursor's cycles do not grow.
///
/// Pad a machine that has halted, or a clone of the cursor: a live machine goes on
/// with the register overwritten, to another result.
///
/// ```
/// use magnetar_cpu::{padding, segment, start, RECORD_WORDS};
///
/// let rows = [0x0055_0513, 0x0055_0513, 0x0000_0073]; // x10 += 5, twice; ecall
/// let mut records = [0; 2 * RECORD_WORDS];
/// let mut cursor = start(&[]);
/// segment(&rows, &mut cursor, 1, &mut records)?;
/// padding(&rows, &mut cursor, 1, &mut records)?;
/// segment(&rows, &mut cursor, 2, &mut records)?;
/// assert_eq!(cursor.output(), 5);
/// # Ok::<(), magnetar_cpu::Refusal>(())
/// ```
///
/// # Errors
///
/// As for [`segment`], but that [`Refusal::TooManyCycles`] is none of them.
///
/// # Panics
///
/// If the library's answer is none of its numbers, or if the library is of another
/// version: [`cursor_words`].
pub fn padding(
    rows: &[u64],
    cursor: &mut Cursor,
    length: u64,
    records: &mut [u64],
) -> Result<(), Refusal> {
    let answer = words::padding(rows, cursor.image_mut(), length, records);
    result("magnetar_padding", answer, &Refusal::PADDING)
}

/// What [`execute`] has done.
#[derive(Clone, Debug, PartialEq, Eq)]
#[non_exhaustive]
pub struct Execution {
    /// How many cycles were live, the halting one included: at most
    /// `max_cycles`.
    pub live_count: u64,
    /// How many records were written: the smallest power of two that is at least
    /// 1 and at least the live count. Those past the live ones are padding.
    pub record_count: usize,
    /// The cursor after padding. With [`Stop::Limit`] do not go on from it: padding
    /// may have overwritten a register of the live machine.
    pub cursor: Cursor,
    /// Why the machine stopped: at a halt, or because `max_cycles` were run.
    pub stop: Stop,
}

impl Execution {
    /// The records that the execution wrote into `buffer`.
    ///
    /// # Panics
    ///
    /// If the buffer has not that many records: it is not the one that was lent.
    pub fn records<'a>(&self, buffer: &'a [u64]) -> Records<'a> {
        records(&buffer[..RECORD_WORDS * self.record_count])
    }
}

/// Runs a machine from a fresh cursor with `input` until it halts, at most
/// `max_cycles` cycles, and pads its records to a power of two.
///
/// The records go to the first `RECORD_WORDS * record_count` places of `records`;
/// the places after them are left alone. `RECORD_WORDS *
/// max_cycles.next_power_of_two()` places are exactly enough, and needed even if
/// the machine halts early.
///
/// # Errors
///
/// The records are left as they were. Lowest number first:
/// - [`Refusal::NoRows`], 1: there are no rows.
/// - [`Refusal::TooManyRows`], 2: there are over [`MAX_ROWS`].
/// - [`Refusal::NoExpansion`], 3: they are not the expansion of a program.
/// - [`Refusal::TooManyCycles`], 5: `max_cycles` is over [`MAX_EXECUTE_CYCLES`].
/// - [`Refusal::Short`], 6: `records` has fewer places than are needed.
///
/// # Panics
///
/// If the library's answer is none of its numbers, or if the library is of another
/// version: [`cursor_words`].
pub fn execute(
    rows: &[u64],
    input: &[u64],
    max_cycles: u64,
    records: &mut [u64],
) -> Result<Execution, Refusal> {
    let mut image = [0; Cursor::WORDS];
    let (mut live_count, mut record_count) = (0, 0);
    let answer = words::execute(
        rows,
        input,
        max_cycles,
        records,
        &mut image,
        &mut live_count,
        &mut record_count,
    );
    result("magnetar_execute", answer, &Refusal::EXECUTE)?;
    let cursor = Cursor::new(image);
    let stop = cursor.stop(rows);
    Ok(Execution {
        live_count,
        record_count: usize::try_from(record_count).expect("a count of records in memory"),
        cursor,
        stop: stop.expect("a machine from the start halts at a row that halts"),
    })
}

/// Whether two cursors are the same checkpoint: every word but cycles agrees,
/// where any two halted words other than 0 agree.
///
/// Two that are the same go on alike: every list of [`segment`] and [`padding`]
/// calls made on both, with the same rows, lengths and room for records, in
/// which neither is refused by [`Refusal::TooManyCycles`], gets the same
/// refusals, writes equal records, and leaves cursors that are the same.
///
/// # Panics
///
/// If the library's answer is neither 0 nor 1, or if the library is of another
/// version: [`cursor_words`].
pub fn same_checkpoint(a: &Cursor, b: &Cursor) -> bool {
    yes_or_no("magnetar_same", words::same(a.image(), b.image()))
}

/// How many words the library takes an image to have. If that is not
/// [`Cursor::WORDS`], the library linked is not of this crate's version. This can be
/// called with any library; all functions that take or give a cursor or a dispatcher
/// compare the two first and panic if they differ, before the library is lent anything.
pub fn cursor_words() -> usize {
    usize::try_from(words::cursor_words()).expect("a count of words in memory")
}

fn yes_or_no(call: &str, answer: u64) -> bool {
    match answer {
        0 => false,
        1 => true,
        _ => panic!("{call} answered {answer}"),
    }
}

#[cfg(test)]
mod tests {
    use super::*;

    #[test]
    fn answers_as_yes_and_no() {
        assert!(yes_or_no("a", 1));
        assert!(!yes_or_no("a", 0));
    }

    #[test]
    #[should_panic(expected = "a answered 2")]
    fn an_answer_that_is_neither() {
        yes_or_no("a", 2);
    }
}
