//! Loads and stores that stay inside a RAM word.

use super::{case, registers, values, Case, STALE};
use crate::asm::{load, store};
use crate::manual::case::RAM_WORDS;
use crate::manual::qemu::HIGH;

/// funct3 of lbu, lhu and ld, of sb, sh, sw and sd, and how many offsets in a word
/// the recorder agrees on.
const LOADS: [(u32, u64); 3] = [(4, 8), (5, 7), (3, 1)];
const STORES: [(u32, u64); 4] = [(0, 8), (1, 7), (2, 5), (3, 1)];
/// The first, the last, and some between.
const WORDS: [u64; 4] = [0, RAM_WORDS as u64 - 1, 1, 100];
/// Bytes with and without their highest bit.
const CONTENTS: [u64; 2] = [0xf1e2_d3c4_b5a6_9788, 0x00ff_7f80_017f_ff80];
/// What the words beside hold.
const BESIDE: u64 = 0x9192_9394_9596_9798;

/// How an address is put together.
#[derive(Clone, Copy)]
enum Way {
    /// The base is x0, the immediate the address.
    Zero,
    /// The base is where the address is with this immediate. A large one makes a
    /// base below zero for low addresses.
    By(i64),
    /// The same in the RAM at the large address.
    HighBy(i64),
}

use Way::{By, HighBy, Zero};

const WAYS: [Way; 10] = [
    Zero,
    By(0),
    By(2047),
    By(-2048),
    By(-1),
    HighBy(0),
    HighBy(-2048),
    HighBy(2047),
    By(8),
    By(-8),
];

const LEAST_PLACES: usize = 70;

pub fn cases() -> Vec<Case> {
    let loads = LOADS.into_iter().flat_map(|(funct3, offsets)| {
        let coincidences = coincidences(|registers| load(funct3, registers, 8));
        loads(funct3, offsets).chain(coincidences)
    });
    let stores = STORES.into_iter().flat_map(|(funct3, offsets)| {
        let coincidences = coincidences(|registers| store(funct3, registers, 8));
        stores(funct3, offsets).chain(coincidences)
    });
    loads.chain(stores).collect()
}

/// Doublewords are boundaries, parts of them are bytes of both kinds.
fn loads(funct3: u32, offsets: u64) -> impl Iterator<Item = Case> {
    let places = (0..).zip(places(offsets).zip(values().cycle()));
    places.map(move |(number, (place, value))| {
        let [d, base, _] = registers(number);
        let content = match funct3 {
            3 => value,
            _ => CONTENTS[number % 2],
        };
        let word = |base, imm| load(funct3, [d, base], imm);
        place.case(word, base, (d, STALE), content)
    })
}

fn stores(funct3: u32, offsets: u64) -> impl Iterator<Item = Case> {
    let places = (0..).zip(places(offsets).zip(values().cycle()));
    places.map(move |(number, (place, value))| {
        let [_, base, source] = registers(number);
        let word = |base, imm| store(funct3, [source, base], imm);
        place.case(word, base, (source, value), CONTENTS[0])
    })
}

/// What is loaded or stored is the base or x0, and the base is x0. The immediate
/// is 8.
fn coincidences(word: impl Fn([u32; 2]) -> u32) -> [Case; 3] {
    let ram = [(1, CONTENTS[0]), (0xfe, CONTENTS[1])];
    [[5, 5], [0, 5], [0, 0]].map(|registers| case(&[word(registers)], &[(5, 0x7e8)], &ram))
}

/// An address and how it is put together.
#[derive(Clone, Copy)]
struct Place {
    word: u64,
    offset: u64,
    way: Way,
}

/// Every offset in every way, and each at another word. Forms of few offsets have
/// them several times, so that every register is a base, and forms of one have it
/// at every word.
fn places(offsets: u64) -> impl Iterator<Item = Place> {
    let rounds = LEAST_PLACES.div_ceil(WAYS.len() * offsets as usize);
    (0..rounds).flat_map(move |round| {
        (0..offsets).flat_map(move |offset| {
            (0..).zip(WAYS).map(move |(number, way)| {
                let word = WORDS[(round + offset as usize + number) % WORDS.len()];
                Place { word, offset, way }
            })
        })
    })
}

impl Place {
    /// Where RAM is, the base, and the immediate.
    fn parts(self) -> (u64, u64, i64) {
        let address = 8 * self.word + self.offset;
        match self.way {
            Zero => (0, 0, address as i64),
            By(imm) => (0, address.wrapping_add_signed(-imm), imm),
            HighBy(imm) => (HIGH, (HIGH + address).wrapping_add_signed(-imm), imm),
        }
    }

    /// The case of a word with this base and this other register.
    fn case(
        self,
        word: impl Fn(u32, i64) -> u32,
        base: u32,
        other: (u32, u64),
        content: u64,
    ) -> Case {
        let (buffer, from, imm) = self.parts();
        let base = match self.way {
            Zero => 0,
            _ => base,
        };
        let registers = [(base, from), other];
        Case {
            buffer,
            ..case(&[word(base, imm)], &registers, &self.ram(content))
        }
    }

    /// The word and those beside it.
    fn ram(self, content: u64) -> Vec<(u64, u64)> {
        let beside = [self.word.wrapping_sub(1), self.word + 1].map(|word| (word, BESIDE));
        let mut ram = vec![(self.word, content)];
        ram.extend(
            beside
                .into_iter()
                .filter(|&(word, _)| word < RAM_WORDS as u64),
        );
        ram
    }
}
