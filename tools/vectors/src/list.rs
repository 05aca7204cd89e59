//! Reads a stored list.

use crate::listing::{holds, STRIDE, UNCOMPARED, WIDTH};
use std::fs;
use std::ops::Range;
use std::path::Path;

/// A kind of list. Its parts are the lines that are right or wrong together:
/// each line of a list of words, all lines of a program in a list of programs,
/// all lines of a list of calls, all lines of a case in a list of traces.
pub struct ListKind {
    /// The characters of a line, where all lines have the same number.
    pub width: Option<usize>,
    /// Whether a part begins with this line.
    pub begins: fn(&[u8]) -> bool,
    /// The first line of a part that is not what the reference answers,
    /// counted from zero.
    pub first_wrong: fn(&[u8]) -> Option<usize>,
    /// Whether it is tried to make the character in this column of a line,
    /// counted from zero, this other one.
    pub tries: fn(&[u8], usize, u8) -> bool,
    /// Of so many drawn changes of such a line one is tried: more where there
    /// are very many such lines.
    pub rarity: fn(&[u8]) -> usize,
}

/// The lists of decoded words.
pub const WORDS: ListKind = ListKind {
    width: Some(WIDTH),
    begins: |_| true,
    first_wrong: |line| (!line.strip_suffix(b"\n").is_some_and(holds)).then_some(0),
    tries: is_compared,
    rarity: |_| 1,
};

/// A character that is compared, and stays so.
pub fn is_compared(line: &[u8], column: usize, to: u8) -> bool {
    line[column] != UNCOMPARED && to != UNCOMPARED
}

impl ListKind {
    /// The bytes of a good list: whole lines, all right by the reference.
    pub fn read(&self, path: &Path) -> Result<Vec<u8>, String> {
        let bytes = fs::read(path).map_err(|error| format!("{}: {error}", path.display()))?;
        self.check(&bytes)
            .map_err(|message| format!("{}: {message}", path.display()))?;
        Ok(bytes)
    }

    /// The bytes of each part, line feeds included. Lines before the first
    /// beginning are a part, too, which is a wrong one.
    pub fn parts(&self, list: &[u8]) -> Vec<Range<usize>> {
        let mut parts: Vec<Range<usize>> = Vec::new();
        let mut start = 0;
        for line in fed_lines(list) {
            let end = start + line.len();
            match parts.last_mut() {
                Some(part) if !(self.begins)(line) => part.end = end,
                _ => parts.push(start..end),
            }
            start = end;
        }
        parts
    }

    /// The first wrong line of each wrong part, counted from one.
    pub fn wrong_lines(&self, list: &[u8]) -> Vec<usize> {
        let mut found = Vec::new();
        let mut first = 1;
        for part in self.parts(list) {
            let part = &list[part];
            found.extend((self.first_wrong)(part).map(|line| first + line));
            first += fed_lines(part).count();
        }
        found
    }

    /// The columns of a line, without its line feed, at which this change is tried.
    #[cfg(test)]
    pub fn tried(&self, line: &str, to: u8) -> Vec<usize> {
        let columns = 0..line.len() - 1;
        let tried = columns.filter(|&column| (self.tries)(line.as_bytes(), column, to));
        tried.collect()
    }

    fn check(&self, bytes: &[u8]) -> Result<(), String> {
        if bytes.is_empty() {
            return Err("the list is empty".to_string());
        }
        if let Some(width) = self.width {
            let whole = |line: &[u8]| line.len() == width + 1 && line.ends_with(b"\n");
            if let Some(index) = fed_lines(bytes).position(|line| !whole(line)) {
                return Err(format!(
                    "line {} is not {width} characters and a line feed",
                    index + 1
                ));
            }
        }
        match self.wrong_lines(bytes).first() {
            None => Ok(()),
            Some(number) => Err(format!("line {number} is not what the reference answers")),
        }
    }
}

/// The lines of any list, each with its line feed. The last may lack it.
pub fn fed_lines(list: &[u8]) -> impl Iterator<Item = &[u8]> {
    list.split_inclusive(|&byte| byte == b'\n')
}

/// The first line that is not that of the right text, counted from zero: one of
/// them, or the one behind where one is missing or too many.
pub fn first_difference(kept: &[&[u8]], right: &str) -> Option<usize> {
    let right: Vec<&[u8]> = fed_lines(right.as_bytes()).collect();
    (0..kept.len().max(right.len())).find(|&line| kept.get(line) != right.get(line))
}

/// How many lines end before this byte.
pub fn lines_before(list: &[u8], offset: usize) -> usize {
    list[..offset].iter().filter(|&&byte| byte == b'\n').count()
}

/// The lines of a list of fixed width, each without its line feed.
pub fn lines(list: &[u8]) -> impl Iterator<Item = &[u8]> {
    list.chunks_exact(STRIDE).map(|line| &line[..WIDTH])
}

#[cfg(test)]
mod tests {
    use super::*;
    use crate::listing::{join, Line};
    use crate::rowline::{expansion, PROGRAMS};

    fn good() -> String {
        join([Line::of_reference(0x13), Line::of_reference(0x73)])
    }

    /// Programs of 1 and 2 rows: lines 1 to 2 and 3 to 5.
    fn good_programs() -> String {
        expansion(&[0x13]) + &expansion(&[0x6f, 0x73])
    }

    #[test]
    fn good_lists_pass() {
        let list = good();
        assert_eq!(WORDS.check(list.as_bytes()), Ok(()));
        assert_eq!(lines(list.as_bytes()).count(), 2);
        assert_eq!(PROGRAMS.check(good_programs().as_bytes()), Ok(()));
    }

    #[test]
    fn parts_follow_one_another() {
        assert_eq!(WORDS.parts(good().as_bytes()), [0..STRIDE, STRIDE..96]);
        assert_eq!(PROGRAMS.parts(good_programs().as_bytes()), [0..96, 96..240]);
    }

    #[test]
    fn lines_may_have_any_length() {
        let list = b"a\n\nbc\nd";
        let found: Vec<&[u8]> = fed_lines(list).collect();
        assert_eq!(found, [&b"a\n"[..], b"\n", b"bc\n", b"d"]);
        let before: Vec<usize> = (0..=7).map(|offset| lines_before(list, offset)).collect();
        assert_eq!(before, [0, 0, 1, 2, 2, 2, 3, 3]);
    }

    #[test]
    fn the_first_difference_of_lines() {
        let found = |kept: &[u8]| first_difference(&fed_lines(kept).collect::<Vec<_>>(), "a\nb\n");
        assert_eq!(found(b"a\nb\n"), None);
        assert_eq!(found(b"a\nc\n"), Some(1));
        assert_eq!(found(b"a\nb"), Some(1));
        assert_eq!(found(b"a\n"), Some(1));
        assert_eq!(found(b"a\nb\nc\n"), Some(2));
        assert_eq!(found(b""), Some(0));
    }

    #[test]
    fn bad_lists_are_named() {
        let list = good();
        let message = |bytes: &[u8]| WORDS.check(bytes).unwrap_err();
        assert!(message(b"").contains("empty"));
        assert!(message(&list.as_bytes()[..80]).contains("line 2 is not 47"));
        assert!(message(list.replacen(' ', "\n", 1).as_bytes()).contains("line 1 is not 47"));
        assert!(message(list.replace("Ecall ", "Ebreak").as_bytes()).contains("line 2 is not what"));
    }

    #[test]
    fn bad_programs_are_named() {
        let list = good_programs();
        let message = |bytes: &[u8]| PROGRAMS.check(bytes).unwrap_err();
        let replaced = |from, to| message(list.replace(from, to).as_bytes());
        assert!(message(&list.as_bytes()[STRIDE..]).contains("line 1 is not what"));
        assert!(replaced("0001 words", "0002 words").contains("line 1 is not what"));
        assert!(replaced("Jump", "Load").contains("line 4 is not what"));
        assert!(replaced("00000073", "0000007g").contains("line 5 is not what"));
        // A program without its last row.
        assert!(message(&list.as_bytes()[..4 * STRIDE]).contains("line 3 is not what"));
    }

    #[test]
    fn an_absent_file_is_named() {
        let message = WORDS.read(Path::new("no-such-list")).unwrap_err();
        assert!(message.starts_with("no-such-list: "));
    }
}
