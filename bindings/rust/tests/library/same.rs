//! When two cursors are the same checkpoint.

use crate::guarded::Guarded;
use crate::{shift_rows, with, ECALL};
use magnetar_cpu::{padding, same_checkpoint, segment, words};
use magnetar_cpu::{Cursor, Image, Refusal, MAX_TOTAL_CYCLES, RECORD_WORDS};

type Call = fn(&[u64], &mut Cursor, u64, &mut [u64]) -> Result<(), Refusal>;

/// Both ways round, with guard words, and in the safe form.
fn same(a: &Image, b: &Image) -> bool {
    let mut lent = [Guarded::new(a), Guarded::new(b)];
    let before = lent.clone();
    let [a_lent, b_lent] = &mut lent;
    let (a_words, b_words) = (a_lent.image_mut(), b_lent.image_mut());
    let answers = [words::same(a_words, b_words), words::same(b_words, a_words)];
    assert_eq!(lent, before);
    assert_eq!(answers[0], answers[1]);
    let safe = same_checkpoint(&Cursor::new(*a), &Cursor::new(*b));
    assert_eq!(answers[0], u64::from(safe));
    safe
}

#[test]
fn a_difference_in_one_word() {
    let image: Image = std::array::from_fn(|place| place as u64 * 0x1_0000_0001);
    assert!(same(&image, &image));
    for place in (0..Cursor::WORDS).filter(|&place| place != Cursor::HALTED) {
        for bit in [0, 31, 32, 63] {
            let mut other = image;
            other[place] ^= 1 << bit;
            assert_eq!(same(&image, &other), place == Cursor::CYCLES, "{place}");
        }
    }
}

/// Two checkpoints that are the same but for their cycles go on alike, whatever
/// the buffers hold: in a register shift, past a refusal, and halted.
#[test]
fn the_same_go_on_alike() {
    let rows: Vec<u64> = shift_rows().into_iter().chain([u64::from(ECALL)]).collect();
    let mut image = with(&[(1, 3), (2, 5)]);
    let mut a = Cursor::new(image);
    image[Cursor::CYCLES] = MAX_TOTAL_CYCLES - 40;
    let mut b = Cursor::new(image);
    // Length and room: the second has too little, and the machine halts in the third.
    let calls: [(Call, u64, usize); 4] = [
        (segment, 3, 60),
        (segment, 4, 67),
        (segment, 5, 85),
        (padding, 2, 40),
    ];
    for (call, length, room) in calls {
        let (mut in_a, mut in_b) = (vec![7; room], vec![8; room]);
        let answers = [
            call(&rows, &mut a, length, &mut in_a),
            call(&rows, &mut b, length, &mut in_b),
        ];
        assert_eq!(answers[0], answers[1]);
        let written = answers[0].map_or(0, |()| RECORD_WORDS * length as usize);
        assert_eq!(in_a[..written], in_b[..written]);
        assert!(same_checkpoint(&a, &b) && a != b);
    }
    assert!(a.is_halted());
    // Where one of them meets the limit they part.
    let mut records = [0; 40 * RECORD_WORDS];
    assert_eq!(segment(&rows, &mut a, 40, &mut records), Ok(()));
    let refused = segment(&rows, &mut b, 40, &mut records);
    assert_eq!(refused, Err(Refusal::TooManyCycles));
}

/// Any word but 0 is a halted machine.
#[test]
fn halted_words() {
    for a in [0, 1, 2, 1 << 32, u64::MAX] {
        for b in [0, 1, 2, 1 << 32, u64::MAX] {
            let image_of = |word| {
                let mut image = [7; Cursor::WORDS];
                image[Cursor::HALTED] = word;
                image
            };
            let wanted = (a == 0) == (b == 0);
            assert_eq!(same(&image_of(a), &image_of(b)), wanted, "{a} and {b}");
        }
    }
}
