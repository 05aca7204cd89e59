//! The record of a cycle, read by the names of its fields.

#![forbid(unsafe_code)]

use crate::Flags;
use core::fmt;
use core::iter::FusedIterator;
use core::slice::ChunksExact;

/// The words of a record.
pub const RECORD_WORDS: usize = 17;

/// The 17 words of a cycle, as a call has left them in a record buffer.
///
/// The constants of type `usize` are places among the words; those of type `u64`
/// are the flags' bits in word 16.
///
/// As text it is one line: the rows, the register written, the RAM word of a load
/// or store, and the flags.
#[derive(Clone, Copy, PartialEq, Eq)]
pub struct Record<'a> {
    words: &'a [u64; RECORD_WORDS],
}

/// Each word's place, and its reader.
macro_rules! words {
    ($($(#[$doc:meta])* $place:ident $name:ident $at:literal)*) => {
        impl Record<'_> {
            $($(#[$doc])* pub const $place: usize = $at;)*
            $($(#[$doc])* pub fn $name(&self) -> u64 { self.words[Self::$place] })*

            /// The names and words of the fields that are words.
            fn named_words(&self) -> [(&'static str, u64); 16] {
                [$((stringify!($name), self.$name())),*]
            }
        }
    };
}

words! {
    /// The row that the cycle ran or, if it is padding, shows.
    MICRO_PC micro_pc 0
    /// Register rs1 of the row, before the cycle.
    RS1_VAL rs1_val 1
    /// Register rs2 of the row, before the cycle.
    RS2_VAL rs2_val 2
    /// What is written into register `rd`.
    RD_VAL rd_val 3
    /// What register `rd` held before; of a jump with a link, the link.
    RD_OLD rd_old 4
    /// The register that is written: 32 stands for none and for x0.
    RD rd 5
    /// The RAM word that a load or store accesses, else 0.
    RAM_ADDR ram_addr 6
    /// The content of that RAM word before the cycle.
    RAM_WORD ram_word 7
    /// The same, of a store only.
    RAM_OLD ram_old 8
    /// What a store leaves in that RAM word.
    RAM_NEW ram_new 9
    /// The content of the register that a store takes its bytes from, else 0.
    STORE_SRC store_src 10
    /// The row of the next cycle.
    NEXT_PC next_pc 11
    /// The first operand, the base of an address.
    ALU_A alu_a 12
    /// The second operand, the offset of an address.
    ALU_B alu_b 13
    /// The output of the ALU, an address for loads and stores.
    ALU_OUT alu_out 14
    /// The value of a shift of one row (all but those of opcode 0x33), else 0.
    SHIFT_OUT shift_out 15
}

impl<'a> Record<'a> {
    /// The place of byte_offset + 2^8 × store_width + 2^16 × flags.
    pub const PACKED: usize = 16;

    /// A view of these words.
    pub fn new(words: &'a [u64; RECORD_WORDS]) -> Self {
        Record { words }
    }

    /// The words themselves.
    pub fn words(&self) -> &'a [u64; RECORD_WORDS] {
        self.words
    }

    /// The lower three bits of a load's or store's address, else 0.
    pub fn byte_offset(&self) -> u8 {
        self.words[Self::PACKED] as u8
    }

    /// How many bytes a store writes, 0 if there is no store.
    pub fn store_width(&self) -> u8 {
        (self.words[Self::PACKED] >> 8) as u8
    }

    /// The flags, which can be read one by one as well.
    pub fn flags(&self) -> Flags {
        Flags::new(self.words[Self::PACKED] >> 16)
    }
}

impl fmt::Debug for Record<'_> {
    fn fmt(&self, f: &mut fmt::Formatter) -> fmt::Result {
        let mut fields = f.debug_struct("Record");
        for (name, word) in self.named_words() {
            fields.field(name, &word);
        }
        fields.field("byte_offset", &self.byte_offset());
        fields.field("store_width", &self.store_width());
        fields.field("flags", &self.flags());
        fields.finish()
    }
}

impl fmt::Display for Record<'_> {
    fn fmt(&self, f: &mut fmt::Formatter) -> fmt::Result {
        write!(f, "row {} -> {}: ", self.micro_pc(), self.next_pc())?;
        // Not "was": rd_old of a jump with a link is the link.
        let (rd, value, old) = (self.rd(), self.rd_val(), self.rd_old());
        write!(f, "register {rd} = {value} (rd_old {old}); ")?;
        let word = self.ram_addr();
        if self.is_store() {
            let (new, old) = (self.ram_new(), self.ram_old());
            write!(f, "RAM word {word} = {new} (ram_old {old}); ")?;
        } else if self.is_load() {
            write!(f, "RAM word {word} is {}; ", self.ram_word())?;
        }
        write!(f, "flags {}", self.flags())
    }
}

/// The records of a buffer, in order. Words after the last whole record are left
/// out. A call may have written fewer records than the buffer has room for: lend
/// this the written ones only, or take
/// [`Execution::records`](crate::Execution::records).
///
/// ```
/// use magnetar_cpu::{records, RECORD_WORDS};
///
/// let buffer = [7; 2 * RECORD_WORDS + 1];
/// assert_eq!(records(&buffer).len(), 2);
/// assert!(records(&buffer).all(|record| record.rd_val() == 7));
/// ```
pub fn records(buffer: &[u64]) -> Records<'_> {
    Records {
        words: buffer.chunks_exact(RECORD_WORDS),
    }
}

/// What [`records`] gives.
#[derive(Clone)]
pub struct Records<'a> {
    words: ChunksExact<'a, u64>,
}

fn view(words: &[u64]) -> Record<'_> {
    Record::new(words.try_into().expect("the words of a record"))
}

impl<'a> Iterator for Records<'a> {
    type Item = Record<'a>;

    fn next(&mut self) -> Option<Record<'a>> {
        self.words.next().map(view)
    }

    fn nth(&mut self, place: usize) -> Option<Record<'a>> {
        self.words.nth(place).map(view)
    }

    fn size_hint(&self) -> (usize, Option<usize>) {
        self.words.size_hint()
    }
}

impl<'a> DoubleEndedIterator for Records<'a> {
    fn next_back(&mut self) -> Option<Record<'a>> {
        self.words.next_back().map(view)
    }
}

impl ExactSizeIterator for Records<'_> {}

impl FusedIterator for Records<'_> {}

impl fmt::Debug for Records<'_> {
    fn fmt(&self, f: &mut fmt::Formatter) -> fmt::Result {
        f.debug_list().entries(self.clone()).finish()
    }
}

#[cfg(test)]
mod tests {
    use super::*;
    use std::format;
    use std::vec::Vec;

    #[test]
    fn every_word_has_its_own_name() {
        let words = core::array::from_fn(|place| place as u64 + 100);
        let record = Record::new(&words);
        assert_eq!(record.named_words().map(|(_, word)| word), words[..16]);
    }

    #[test]
    fn the_fields_of_a_record() {
        let mut words = [0; RECORD_WORDS];
        words[3] = 1200;
        words[16] = 1 << 27 | 0x0807;
        let text = format!("{:?}", Record::new(&words));
        assert!(text.starts_with("Record { micro_pc: 0, rs1_val: 0, rs2_val: 0, rd_val: 1200,"));
        assert!(text.ends_with("byte_offset: 7, store_width: 8, flags: Flags(halted_latch) }"));
        assert_eq!(format!("{:?}", records(&words)), format!("[{text}]"));
    }

    #[test]
    fn a_buffer_that_ends_inside_a_record() {
        let buffer: Vec<u64> = (0..70).collect();
        let firsts = |records: &mut dyn Iterator<Item = Record>| -> Vec<u64> {
            records.map(|record| record.micro_pc()).collect()
        };
        assert_eq!(firsts(&mut records(&buffer)), [0, 17, 34, 51]);
        assert_eq!(firsts(&mut records(&buffer).rev()), [51, 34, 17, 0]);
        assert_eq!(firsts(&mut records(&buffer).skip(2)), [34, 51]);
        assert_eq!(records(&buffer).len(), 4);
        assert_eq!(records(&[]).len(), 0);
    }
}
