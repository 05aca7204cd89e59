//! The lines of a list of traces: for each case a line `i HEX` with the bytes
//! that `trace` reads, two lower-case digits a byte, then a line `o TEXT` for
//! each line that it must print. No bytes are the line `i ` without digits.

use crate::answer::answer;
use crate::list::{fed_lines, first_difference, ListKind};
use std::str;

/// The lists of traces.
pub const TRACES: ListKind = ListKind {
    width: None,
    begins: |line| line.starts_with(b"i"),
    first_wrong,
    // Not the input: a bit of it may come into no record, as in a word that is
    // never reached, and then the answer stays as it was.
    tries: |line, _, _| line.starts_with(b"o"),
    // Records are most of a list.
    rarity: |line| if is_record(line) { 16 } else { 1 },
};

/// The lines of a case, each with its line feed: the answer of the reference.
pub fn case(input: &[u8]) -> String {
    let digits: String = input.iter().map(|byte| format!("{byte:02x}")).collect();
    let answer = answer(input);
    let printed = str::from_utf8(&answer).expect("decimal numbers");
    let printed = printed.lines().map(|line| format!("o {line}\n"));
    format!("i {digits}\n{}", printed.collect::<String>())
}

/// The bytes of a line `i HEX`. What `from_str_radix` takes beside digits is
/// found by the comparison with the right line.
fn read(line: &[u8]) -> Option<Vec<u8>> {
    let digits = line.strip_prefix(b"i ")?.strip_suffix(b"\n")?;
    let byte = |pair: &[u8]| u8::from_str_radix(str::from_utf8(pair).ok()?, 16).ok();
    digits.chunks(2).map(byte).collect()
}

fn first_wrong(part: &[u8]) -> Option<usize> {
    let kept: Vec<&[u8]> = fed_lines(part).collect();
    match kept.first().and_then(|line| read(line)) {
        None => Some(0),
        Some(input) => first_difference(&kept, &case(&input)),
    }
}

/// The first line of an answer has three numbers at most, or the text refused.
fn is_record(line: &[u8]) -> bool {
    line.iter().filter(|&&byte| byte == b',').count() > 2
}

#[cfg(test)]
mod tests {
    use super::*;

    /// The run that 01 gives as its example.
    const LINES: [&str; 4] = [
        "i 08000000000000001305500073000000",
        "o 2,2,5",
        "o 0,0,0,5,0,10,0,0,0,0,0,1,0,5,5,0,327680",
        "o 1,5,0,5,0,32,0,0,0,0,0,1,5,0,5,0,134217728",
    ];

    fn example() -> String {
        LINES.map(|line| format!("{line}\n")).concat()
    }

    #[test]
    fn the_example_case() {
        let first = format!("{}\n", LINES[0]);
        assert_eq!(case(&read(first.as_bytes()).unwrap()), example());
    }

    #[test]
    fn no_bytes_are_no_digits() {
        assert_eq!(case(&[]), "i \no refused,0\n");
        assert_eq!(first_wrong(b"i \no refused,0\n"), None);
        assert_eq!(first_wrong(b"i\no refused,0\n"), Some(0));
        assert_eq!(case(&[0xab, 0x0c]), "i ab0c\no refused,0\n");
    }

    #[test]
    fn the_first_wrong_line_is_found() {
        let changes = [
            ("i 0", "i g", 0),
            ("i 0", "i +", 0),
            ("i 0", "i ", 0),
            ("i ", "i  ", 0),
            ("i ", "x ", 0),
            ("73000000", "7300000", 0),
            // A lower count of cycles has another first line.
            ("i 08", "i 01", 1),
            ("o 2,2,5", "o 2,2,6", 1),
            ("o 2,2,5\n", "", 1),
            ("o 0,0", "o0,0", 2),
            ("327680", "0327680", 2),
            ("134217728\n", "134217728", 3),
            ("134217728\n", "134217728\no \n", 4),
            ("134217728\n", "134217728\n\n", 4),
        ];
        assert_eq!(first_wrong(example().as_bytes()), None);
        for (from, to, line) in changes {
            let changed = example().replacen(from, to, 1);
            assert_eq!(first_wrong(changed.as_bytes()), Some(line), "{from} {to}");
        }
        assert_eq!(first_wrong(b""), Some(0));
        assert_eq!(first_wrong(b"i 0B\no refused,0\n"), Some(0));
    }

    #[test]
    fn only_what_is_printed_is_tried() {
        let tried = |line: &str| (TRACES.tries)(line.as_bytes(), 3, b'5');
        assert!(!tried(LINES[0]) && LINES[1..].iter().all(|line| tried(line)));
        let rarities = LINES.map(|line| (TRACES.rarity)(line.as_bytes()));
        assert_eq!(rarities, [1, 1, 16, 16]);
    }
}
