//! Words and bytes that are lent to a call, with guards around them.

use std::fmt::Debug;

const GUARDS: usize = 4;

/// What can be lent, with two values that no call would write.
pub trait Word: Copy + Debug + PartialEq {
    const GUARD: Self;
    const FREE: Self;
}

impl Word for u8 {
    const GUARD: u8 = b'g';
    const FREE: u8 = b'f';
}

impl Word for u32 {
    const GUARD: u32 = 0x6775_6172;
    const FREE: u32 = 0x6672_6565;
}

impl Word for u64 {
    const GUARD: u64 = u32::GUARD as u64;
    const FREE: u64 = u32::FREE as u64;
}

#[derive(Clone, Debug, PartialEq)]
pub struct Guarded<T> {
    all: Vec<T>,
}

impl<T: Word> Guarded<T> {
    pub fn new(words: &[T]) -> Self {
        let guard = [T::GUARD; GUARDS];
        Guarded {
            all: [&guard[..], words, &guard].concat(),
        }
    }

    /// Words that no call would write.
    pub fn buffer(length: usize) -> Self {
        Guarded::new(&vec![T::FREE; length])
    }

    /// The same, but the first words are these.
    pub fn after(mut self, words: &[T]) -> Self {
        self.words_mut()[..words.len()].copy_from_slice(words);
        self
    }

    pub fn words(&self) -> &[T] {
        &self.all[GUARDS..self.all.len() - GUARDS]
    }

    pub fn words_mut(&mut self) -> &mut [T] {
        let end = self.all.len() - GUARDS;
        &mut self.all[GUARDS..end]
    }
}

impl Guarded<u64> {
    pub fn image_mut<const N: usize>(&mut self) -> &mut [u64; N] {
        self.words_mut().try_into().expect("as many words")
    }
}
