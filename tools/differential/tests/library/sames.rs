//! Sameness of cursors, one word at a time.

use differential::{check, Comparing, Lend, Rng};
use magnetar_cpu::{Cursor, Image};

/// The answer, both ways round, everything compared.
fn answer(a: &Image, b: &Image) -> u64 {
    let compared = |a, b| check(Comparing::new(a, b, &mut Rng::new(7)), Comparing::library);
    let [one, other] = [compared(a, b), compared(b, a)].map(|checked| match checked {
        Ok((answer, _)) => answer,
        Err(error) => panic!("{error}"),
    });
    assert_eq!(one, other);
    one
}

#[test]
fn every_word_and_every_bit() {
    let image: Image = std::array::from_fn(|place| place as u64 * 0x9e37_79b9_7f4a_7c15);
    assert_eq!(answer(&image, &image), 1);
    for place in (0..Cursor::WORDS).filter(|&place| place != Cursor::HALTED) {
        for bit in 0..64 {
            let mut other = image;
            other[place] ^= 1 << bit;
            let wanted = u64::from(place == Cursor::CYCLES);
            assert_eq!(answer(&image, &other), wanted, "word {place}, bit {bit}");
        }
    }
}

/// Any two halted words that are not 0 agree.
#[test]
fn every_pair_of_halted_words() {
    let image_of = |word| {
        let mut image = [3; Cursor::WORDS];
        image[Cursor::HALTED] = word;
        image
    };
    let words: Vec<u64> = (0..64).map(|bit| 1 << bit).collect();
    for &a in &words {
        assert_eq!(answer(&image_of(a), &image_of(0)), 0);
        assert_eq!(answer(&image_of(a), &image_of(u64::MAX)), 1);
        for &b in &words {
            assert_eq!(answer(&image_of(a), &image_of(b)), 1);
        }
    }
}
