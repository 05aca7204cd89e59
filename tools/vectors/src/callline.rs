//! The lines of a list of calls: a letter, then hexadecimal numbers without
//! leading zeros, parted by single spaces.
//!
//! - `l`: a list begins; the numbers of program words and of input words
//! - `w`, `i`: a program word, an input word
//! - `s`, `p`: a segment or a padding call; its length, the words of its record
//!   buffer, and what it returns
//! - `r`: a record of an accepted call, 17 words
//! - `c`: the cursor after a call; micro_pc, cycles, halted, output, next_fetch
//! - `g`, `m`: a register or a RAM word that the call changed; number and value

use crate::calllist::{Call, CallKind, CallList, MOST_INPUT, MOST_ROOM, MOST_ROWS, MOST_WORDS};
use crate::list::{fed_lines, first_difference, ListKind};
use magnetar_reference::expand::{expand_program, ExpandedProgram};
use magnetar_reference::interp::{pad_records, CycleRecord, StreamCursor};
use records::pack;
use std::str;

/// The lists of lists of calls.
pub const CALLS: ListKind = ListKind {
    width: None,
    begins: |line| line.starts_with(b"l"),
    first_wrong,
    tries,
    // Records are most of a list.
    rarity: |line| if line.starts_with(b"r") { 16 } else { 1 },
};

/// The lines of a list of calls, each with its line feed: the answers of the
/// reference.
pub fn answers(list: &CallList) -> String {
    let program = expand_program(&list.program);
    let mut cursor = StreamCursor::start(&list.input);
    let mut text = head(list);
    for call in &list.calls {
        text += &answer(call, &program, &mut cursor);
    }
    text
}

fn head(list: &CallList) -> String {
    let counts = [list.program.len() as u64, list.input.len() as u64];
    let words = list.program.iter().map(|&word| line('w', &[word.into()]));
    let inputs = list.input.iter().map(|&word| line('i', &[word]));
    line('l', &counts) + &words.chain(inputs).collect::<String>()
}

/// The lines of a call, which moves the cursor on.
fn answer(call: &Call, program: &ExpandedProgram, cursor: &mut StreamCursor) -> String {
    let before = cursor.st.clone();
    let code = call.code(before.cycles as u64);
    let records = match code {
        0 => run(call, program, cursor),
        _ => Vec::new(),
    };
    let records = records.iter().map(|record| line('r', &pack(record)));
    line(letter(call.kind), &[call.length, call.room, code])
        + &records.collect::<String>()
        + &line('c', &fields(cursor))
        + &changes('g', &before.regs, &cursor.st.regs)
        + &changes('m', &before.ram, &cursor.st.ram)
}

fn run(call: &Call, program: &ExpandedProgram, cursor: &mut StreamCursor) -> Vec<CycleRecord> {
    let length = call.length as usize;
    match call.kind {
        CallKind::Segment => cursor.run_segment(program, length),
        CallKind::Padding => {
            // The reference goes on from the last record of a list, so it is given one.
            let mut records = vec![CycleRecord {
                next_pc: cursor.next_fetch,
                ..Default::default()
            }];
            pad_records(&mut records, &mut cursor.st, program, 1 + length);
            records.split_off(1)
        }
    }
}

fn letter(kind: CallKind) -> char {
    match kind {
        CallKind::Segment => 's',
        CallKind::Padding => 'p',
    }
}

fn fields(cursor: &StreamCursor) -> [u64; 5] {
    [
        cursor.st.micro_pc as u64,
        cursor.st.cycles as u64,
        u64::from(cursor.st.halted),
        cursor.st.output,
        cursor.next_fetch as u64,
    ]
}

pub fn changes(letter: char, before: &[u64], after: &[u64]) -> String {
    (0..)
        .zip(before.iter().zip(after))
        .filter(|(_, (before, after))| before != after)
        .map(|(number, (_, &after))| line(letter, &[number, after]))
        .collect()
}

pub fn line(letter: char, numbers: &[u64]) -> String {
    let numbers = numbers.iter().map(|number| format!(" {number:x}"));
    format!("{letter}{}\n", numbers.collect::<String>())
}

fn first_wrong(part: &[u8]) -> Option<usize> {
    let kept: Vec<&[u8]> = fed_lines(part).collect();
    let list = match read(&kept) {
        Ok(list) => list,
        Err(line) => return Some(line),
    };
    first_difference(&kept, &answers(&list))
}

/// What the lines ask the reference for. The error is a line without which
/// nothing can be asked. At a wrong line of a call the reading ends: then the
/// answers end before that line, which the comparison notices.
fn read(lines: &[&[u8]]) -> Result<CallList, usize> {
    let first = lines.first().and_then(|line| numbers('l', line));
    let [words, inputs] = first.ok_or(0usize)?.map(|count| count as usize);
    if !(1..=MOST_WORDS).contains(&words) || inputs > MOST_INPUT {
        return Err(0);
    }
    let program: Vec<u32> = column('w', lines, 1, words)?;
    if expand_program(&program).len > MOST_ROWS {
        return Err(0);
    }
    let input = column('i', lines, 1 + words, inputs)?;
    let calls = lines[1 + words + inputs..]
        .iter()
        .filter(|line| line.starts_with(b"s") || line.starts_with(b"p"))
        .map_while(|line| read_call(line))
        .collect();
    Ok(CallList {
        program,
        input,
        calls,
    })
}

/// The numbers of so many lines of one number each, or the first that is not.
fn column<T: TryFrom<u64>>(
    letter: char,
    lines: &[&[u8]],
    first: usize,
    count: usize,
) -> Result<Vec<T>, usize> {
    let value = |index| {
        let [number] = numbers(letter, lines.get(index).copied()?)?;
        T::try_from(number).ok()
    };
    (first..first + count)
        .map(|index| value(index).ok_or(index))
        .collect()
}

fn read_call(line: &[u8]) -> Option<Call> {
    let kind = match line.first()? {
        b's' => CallKind::Segment,
        _ => CallKind::Padding,
    };
    let [length, room, _] = numbers(letter(kind), line)?;
    (room <= MOST_ROOM).then_some(Call { kind, length, room })
}

/// The numbers of a line. How they are written is not looked at, because the
/// line is compared with the right one afterwards.
pub fn numbers<const N: usize>(letter: char, line: &[u8]) -> Option<[u64; N]> {
    all_numbers(letter, line)?.try_into().ok()
}

/// The same, of a line of any length.
pub fn all_numbers(letter: char, line: &[u8]) -> Option<Vec<u64>> {
    let text = str::from_utf8(line).ok()?.strip_suffix('\n')?;
    let numbers = text.strip_prefix(letter)?.strip_prefix(' ')?.split(' ');
    numbers
        .map(|number| u64::from_str_radix(number, 16).ok())
        .collect()
}

/// Digits become other digits. Program and input words are left out: not every
/// bit of them must come into a record.
fn tries(line: &[u8], column: usize, to: u8) -> bool {
    !matches!(line[0], b'w' | b'i') && is_digit_for_digit(line, column, to)
}

/// A digit becomes a digit; the letter of the line stays.
pub fn is_digit_for_digit(line: &[u8], column: usize, to: u8) -> bool {
    let is_digit = |byte: u8| matches!(byte, b'0'..=b'9' | b'a'..=b'f');
    column > 0 && is_digit(line[column]) && is_digit(to)
}

#[cfg(test)]
mod tests {
    use super::*;
    use crate::calllist::{padding, segment};

    /// The run that 01 gives as its example, then a padding cycle, a call that
    /// is refused, and one of no cycles.
    const LINES: [&str; 16] = [
        "l 2 1",
        "w 500513",
        "w 73",
        "i 7",
        "s 2 22 0",
        "r 0 0 0 5 0 a 0 7 0 0 0 1 0 5 5 0 50000",
        "r 1 5 0 5 0 20 0 7 0 0 0 1 5 0 5 0 8000000",
        "c 1 2 1 5 1",
        "g a 5",
        "g 20 5",
        "p 1 11 0",
        "r 1 5 0 5 5 20 0 7 0 0 0 1 0 0 0 0 8000000",
        "c 1 2 1 5 1",
        "s 3fffffffffffffff 2228 5",
        "c 1 2 1 5 1",
        "p 0 0 0",
    ];

    fn example() -> String {
        let refused = Call {
            kind: CallKind::Segment,
            length: 0x3fff_ffff_ffff_ffff,
            room: MOST_ROOM,
        };
        answers(&CallList {
            program: vec![0x0050_0513, 0x0000_0073],
            input: vec![7],
            calls: vec![segment(2), padding(1), refused, padding(0)],
        })
    }

    #[test]
    fn the_example_list() {
        let text = example();
        let lines: Vec<&str> = text.lines().collect();
        assert_eq!(lines[..16], LINES);
        assert_eq!(lines[16..], ["c 1 2 1 5 1"]);
        assert!(text.ends_with('\n'));
    }

    #[test]
    fn stores_and_padding_of_a_live_machine() {
        // sb x0,9(x0); addi x1,x0,1
        let text = answers(&CallList {
            program: vec![0x0000_04a3, 0x0010_0093],
            input: vec![0, u64::MAX],
            calls: vec![segment(2), segment(1), padding(1)],
        });
        let lines: Vec<&str> = text.lines().skip(5).collect();
        let all = "ffffffffffffffff";
        let new = "ffffffffffff00ff";
        let store = format!("r 0 0 0 0 0 20 1 {all} {all} {new} 0 1 0 9 9 0 800101");
        let again = format!("r 0 0 0 0 0 20 1 {new} {new} {new} 0 1 0 9 9 0 800101");
        let expected = [
            "s 2 22 0",
            &store,
            "r 1 0 0 1 0 1 0 0 0 0 0 0 0 1 1 0 50000",
            "c 0 2 0 0 0",
            "g 1 1",
            &format!("m 1 {new}"),
            "s 1 11 0",
            &again,
            "c 1 3 0 0 1",
            // The row that would be next gets the output, which is zero.
            "p 1 11 0",
            "r 1 0 1 0 1 1 0 0 0 0 0 1 0 0 0 0 8000000",
            "c 1 3 0 0 1",
            "g 1 0",
        ];
        assert_eq!(lines, expected);
    }

    #[test]
    fn the_first_wrong_line_is_found() {
        let text = example();
        let wrong = |text: &str| first_wrong(text.as_bytes());
        let replaced = |from: &str, to: &str| wrong(&text.replacen(from, to, 1));
        assert_eq!(wrong(&text), None);
        assert_eq!(replaced("l 2", "l 3"), Some(3));
        assert_eq!(replaced("l 2 1", "l 2 0"), Some(3));
        assert_eq!(replaced("l 2 1", "l 2"), Some(0));
        assert_eq!(replaced("l 2", "l 0"), Some(0));
        assert_eq!(replaced("l 2", "l ffffffffffffffff"), Some(0));
        assert_eq!(replaced("i 7", "i 8"), Some(5));
        assert_eq!(replaced("i 7", "i 07"), Some(3));
        assert_eq!(replaced("s 2 22", "s 2 21"), Some(4));
        assert_eq!(replaced("s 2 22", "s 3 33"), Some(7));
        assert_eq!(replaced("s 2 22", "s 1 22"), Some(6));
        assert_eq!(replaced("s 3f", "s ff"), None);
        assert_eq!(replaced("2228", "2229"), Some(13));
        assert_eq!(replaced("p 1", "q 1"), Some(10));
        assert_eq!(replaced("50000", "50001"), Some(5));
        assert_eq!(replaced("c 1 2 1 5", "c 1 2 1 6"), Some(7));
        assert_eq!(replaced("g a 5\n", ""), Some(8));
        assert_eq!(wrong(text.strip_suffix('\n').unwrap()), Some(16));
        assert_eq!(wrong(&(text.clone() + "m 0 7\n")), Some(17));
        assert_eq!(wrong(""), Some(0));
    }

    #[test]
    fn too_many_rows_are_refused() {
        // sll x0,x0,x0 gives six rows.
        let list = |words| {
            let program = vec![0x0000_1033; words];
            let (input, calls) = (Vec::new(), Vec::new());
            answers(&CallList {
                program,
                input,
                calls,
            })
        };
        assert_eq!(first_wrong(list(170).as_bytes()), None);
        assert_eq!(first_wrong(list(171).as_bytes()), Some(0));
    }

    #[test]
    fn only_digits_of_what_must_show_are_tried() {
        let tried = |line, to| CALLS.tried(line, to);
        assert_eq!(tried("c a 10\n", b'f'), [2, 4, 5]);
        assert_eq!(tried("c a 10\n", b'g'), []);
        assert_eq!(tried("w 13\n", b'5'), []);
        assert_eq!(tried("i 13\n", b'5'), []);
        assert_eq!(tried("l 1 0\n", b'5'), [2, 4]);
    }
}
