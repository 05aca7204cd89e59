//! Words in the order of their first occurrence, each once.

use std::collections::HashSet;

#[derive(Default)]
pub struct WordSet {
    seen: HashSet<u32>,
    words: Vec<u32>,
}

impl WordSet {
    pub fn add(&mut self, word: u32) {
        if self.seen.insert(word) {
            self.words.push(word);
        }
    }

    pub fn len(&self) -> usize {
        self.words.len()
    }

    pub fn into_words(self) -> Vec<u32> {
        self.words
    }
}

#[cfg(test)]
mod tests {
    use super::*;

    #[test]
    fn keeps_the_first_occurrence() {
        let mut set = WordSet::default();
        for word in [3, 1, 3, 2, 1] {
            set.add(word);
        }
        assert_eq!(set.len(), 3);
        assert_eq!(set.into_words(), [3, 1, 2]);
    }
}
