//! What the program `trace` must print, made with the reference.

use magnetar_reference::interp::execute;
use records::pack;

/// What 01 accepts.
pub const MOST_BYTES: usize = 4096;
pub const MAX_TRACE_CYCLES: u32 = 256;

const WORD: usize = 4;
/// max_cycles and the number of input words.
const HEADER_WORDS: usize = 2;

/// A run that `trace` is asked for.
#[derive(Clone, Debug, PartialEq, Eq)]
pub struct Run {
    pub max_cycles: u32,
    pub input: Vec<u64>,
    pub program: Vec<u32>,
}

/// The text for these bytes on standard input. The reference takes no empty
/// program, so that is refused before it is called.
pub fn answer(bytes: &[u8]) -> Vec<u8> {
    let text = match Run::read(bytes) {
        None => "refused,0\n".to_string(),
        Some(run) if run.program.is_empty() => "refused,1\n".to_string(),
        Some(run) => run.text(),
    };
    text.into_bytes()
}

impl Run {
    /// The bytes that ask for it.
    pub fn bytes(&self) -> Vec<u8> {
        let header = [self.max_cycles, self.input.len() as u32];
        let halves = self.input.iter().flat_map(|word| word.to_le_bytes());
        let mut bytes = little_endian(&header);
        bytes.extend(halves);
        bytes.extend(little_endian(&self.program));
        bytes
    }

    /// `None` where the answer is refused,0.
    pub fn read(bytes: &[u8]) -> Option<Self> {
        let whole = bytes.len().is_multiple_of(WORD);
        if !whole || !(HEADER_WORDS * WORD..=MOST_BYTES).contains(&bytes.len()) {
            return None;
        }
        let words: Vec<u32> = bytes.chunks_exact(WORD).map(word).collect();
        let (header, rest) = words.split_at(HEADER_WORDS);
        // Twice any u32 fits a u64.
        let halves = usize::try_from(2 * u64::from(header[1])).ok()?;
        let (input, program) = rest.split_at_checked(halves)?;
        let doubleword = |pair: &[u32]| u64::from(pair[0]) | u64::from(pair[1]) << 32;
        (header[0] <= MAX_TRACE_CYCLES).then(|| Run {
            max_cycles: header[0],
            input: input.chunks_exact(2).map(doubleword).collect(),
            program: program.to_vec(),
        })
    }

    fn text(&self) -> String {
        let trace = execute(&self.program, &self.input, self.max_cycles as usize);
        let last = &trace.final_state;
        let counts = [last.cycles as u64, trace.records.len() as u64, last.output];
        let records = trace.records.iter().map(|record| line(&pack(record)));
        line(&counts) + &records.collect::<String>()
    }
}

pub fn little_endian(words: &[u32]) -> Vec<u8> {
    words.iter().flat_map(|word| word.to_le_bytes()).collect()
}

fn word(bytes: &[u8]) -> u32 {
    u32::from_le_bytes(bytes.try_into().expect("four bytes"))
}

fn line(numbers: &[u64]) -> String {
    let numbers: Vec<String> = numbers.iter().map(u64::to_string).collect();
    numbers.join(",") + "\n"
}

#[cfg(test)]
mod tests {
    use super::*;

    const REFUSED_0: &str = "refused,0\n";
    const REFUSED_1: &str = "refused,1\n";
    /// jal x0,0: a loop of one row.
    const LOOP: u32 = 0x0000_006f;

    fn text(bytes: &[u8]) -> String {
        String::from_utf8(answer(bytes)).unwrap()
    }

    /// The answer for words.
    fn of(words: &[u32]) -> String {
        text(&little_endian(words))
    }

    /// A header, and loops up to so many bytes.
    fn long(header: [u32; 2], bytes: usize) -> Vec<u8> {
        let mut words = header.to_vec();
        words.resize(bytes / WORD, LOOP);
        let mut long = little_endian(&words);
        long.resize(bytes, 0);
        long
    }

    #[test]
    fn the_run_that_01_prints() {
        let expected = "\
2,2,5
0,0,0,5,0,10,0,0,0,0,0,1,0,5,5,0,327680
1,5,0,5,0,32,0,0,0,0,0,1,5,0,5,0,134217728
";
        assert_eq!(of(&[8, 0, 0x0050_0513, 0x0000_0073]), expected);
        // It has halted, so more cycles change nothing.
        assert_eq!(of(&[256, 0, 0x0050_0513, 0x0000_0073]), expected);
    }

    #[test]
    fn no_cycles_give_one_latch() {
        let expected = "0,1,0\n0,0,0,0,0,10,0,0,0,0,0,0,0,0,0,0,134217728\n";
        assert_eq!(of(&[0, 0, 0x0050_0513, 0x0000_0073]), expected);
    }

    #[test]
    fn three_live_cycles_are_padded_to_four() {
        let live = "0,0,0,0,0,32,0,0,0,0,0,0,0,0,0,0,0\n";
        let latch = "0,0,0,0,0,32,0,0,0,0,0,0,0,0,0,0,134217728\n";
        let lines = |head: &str, cycles, latches| {
            head.to_string() + &live.repeat(cycles) + &latch.repeat(latches)
        };
        assert_eq!(of(&[3, 0, LOOP]), lines("3,4,0\n", 3, 1));
        assert_eq!(of(&[4, 0, LOOP]), lines("4,4,0\n", 4, 0));
        assert_eq!(of(&[5, 0, LOOP]), lines("5,8,0\n", 5, 3));
        assert_eq!(of(&[256, 0, LOOP]), lines("256,256,0\n", 256, 0));
    }

    /// Numbers above 2^63 have no sign; the low half of an input word is first.
    #[test]
    fn input_words_are_loaded() {
        // ld x10,0(x0); ecall
        let printed = of(&[9, 1, 0x0000_0001, 0x8000_0000, 0x0000_3503, 0x0000_0073]);
        assert!(printed.starts_with("2,2,9223372036854775809\n"));
    }

    #[test]
    fn lengths_in_bytes() {
        let lengths = |k| {
            move |bytes: usize| {
                let printed = text(&long([1, k], bytes));
                printed.lines().next().unwrap().to_string()
            }
        };
        let loops = lengths(0);
        for bytes in [0, 1, 3, 4, 5, 7, 9, 10, 11, 13, 4093, 4095, 4097, 4098] {
            assert_eq!(loops(bytes), "refused,0", "{bytes}");
        }
        for bytes in [4099, 4100, 4104, 4200, 65_536] {
            assert_eq!(loops(bytes), "refused,0", "{bytes}");
        }
        assert_eq!(loops(8), "refused,1");
        for bytes in [12, 16, 4088, 4092, 4096] {
            assert_eq!(loops(bytes), "1,1,0", "{bytes}");
        }
        // As many input words as there can be, and one less.
        assert_eq!(lengths(511)(4096), "refused,1");
        assert_eq!(lengths(510)(4096), "1,1,0");
    }

    #[test]
    fn counts_of_cycles() {
        let head = |max_cycles| of(&[max_cycles, 0, LOOP]).lines().next().map(String::from);
        assert_eq!(head(256).as_deref(), Some("256,256,0"));
        for max_cycles in [257, 258, 512, 65_536, 1 << 31, u32::MAX] {
            assert_eq!(head(max_cycles).as_deref(), Some("refused,0"));
        }
        // Before the empty program, and before nothing else is wrong.
        assert_eq!(of(&[257, 0]), REFUSED_0);
        assert_eq!(of(&[256, 0]), REFUSED_1);
    }

    #[test]
    fn counts_of_input_words() {
        let words = |k| of(&[1, k, 7, 0, LOOP]);
        assert!(words(0).starts_with("1,1,0\n"));
        assert!(words(1).starts_with("1,1,0\n"));
        assert_eq!(words(2), REFUSED_0, "ends inside the words");
        // Twice these wraps at 2^32, to 0, 2 and so on.
        for k in [1 << 31, (1 << 31) + 1, u32::MAX, u32::MAX - 1, 1 << 30] {
            assert_eq!(words(k), REFUSED_0, "{k:x}");
        }
        let no_program = |k| of(&[1, k, 7, 0, 8, 0]);
        assert_eq!(no_program(2), REFUSED_1);
        assert_eq!(no_program(3), REFUSED_0);
        assert_eq!(of(&[1, 1, 7]), REFUSED_0, "half a word");
        assert_eq!(of(&[1, 1]), REFUSED_0);
        assert_eq!(of(&[1, u32::MAX]), REFUSED_0);
        assert_eq!(of(&[1, 1 << 31]), REFUSED_0);
    }

    #[test]
    fn bytes_are_read_back() {
        let run = Run {
            max_cycles: 256,
            input: vec![u64::MAX, 1 << 32, 5],
            program: vec![LOOP, u32::MAX],
        };
        assert_eq!(run.bytes().len(), 8 + 24 + 8);
        assert_eq!(Run::read(&run.bytes()), Some(run));
    }
}
