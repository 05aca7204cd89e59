//! Every call that lends an image or the words of a dispatcher, with a library whose
//! cursor may have another length: it panics exactly then, and leaves what it was lent.
//!
//! `building.rs` runs this once more with such a library, that of `other_size.c`,
//! and says in a variable how many words it has.

#![forbid(unsafe_code)]

#[allow(dead_code)]
#[path = "library/guarded.rs"]
mod guarded;

use guarded::Guarded;
use magnetar_cpu::{cursor_words, execute, padding, same_checkpoint, segment, start, words};
use magnetar_cpu::{Cursor, Dispatcher, DISPATCHER_WORDS, RECORD_WORDS};
use std::env;
use std::fmt::Debug;
use std::panic::{catch_unwind, AssertUnwindSafe};

/// ecall.
const ROWS: [u64; 1] = [0x73];

/// What the calls of `words` are lent.
#[derive(Clone, Debug, PartialEq)]
struct Lent {
    cursor: Guarded<u64>,
    records: Guarded<u64>,
    live: u64,
    record_count: u64,
}

impl Lent {
    fn new() -> Self {
        Lent {
            cursor: Guarded::new(&[0; Cursor::WORDS]),
            records: Guarded::buffer(RECORD_WORDS),
            live: 7,
            record_count: 7,
        }
    }
}

/// What the safe calls are lent. The second cursor guards the first.
#[derive(Clone, Debug, PartialEq)]
struct SafelyLent {
    cursors: [Cursor; 2],
    records: [u64; RECORD_WORDS],
}

impl SafelyLent {
    fn new() -> Self {
        SafelyLent {
            cursors: [0, 7].map(|word| Cursor::new([word; Cursor::WORDS])),
            records: [7; RECORD_WORDS],
        }
    }
}

#[track_caller]
fn check<L: Clone + Debug + PartialEq, A>(mut lent: L, call: impl FnOnce(&mut L) -> A) {
    let before = lent.clone();
    let panic = catch_unwind(AssertUnwindSafe(|| call(&mut lent))).err();
    let panic = panic.map(|message| *message.downcast::<String>().expect("a text"));
    let (theirs, ours) = (cursor_words(), Cursor::WORDS);
    let wanted = format!(
        "the library takes a cursor to have {theirs} words, this crate {ours}: \
         they are not of one version; build both from one checkout"
    );
    assert_eq!(panic, (theirs != ours).then_some(wanted));
    if theirs != ours {
        assert_eq!(lent, before);
    }
}

#[test]
fn the_library_is_the_one_expected() {
    let expected = env::var("EXPECTED_WORDS").unwrap_or(Cursor::WORDS.to_string());
    assert_eq!(cursor_words().to_string(), expected);
}

#[test]
fn calls_of_words() {
    check(Lent::new(), |lent| {
        words::start(&[], lent.cursor.image_mut())
    });
    for call in [words::segment, words::padding] {
        check(Lent::new(), |lent| {
            call(&ROWS, lent.cursor.image_mut(), 1, lent.records.words_mut())
        });
    }
    check(Lent::new(), |lent| {
        let (records, cursor) = (lent.records.words_mut(), lent.cursor.image_mut());
        words::execute(
            &ROWS,
            &[],
            1,
            records,
            cursor,
            &mut lent.live,
            &mut lent.record_count,
        )
    });
    check(Lent::new(), |lent| {
        let image = lent.cursor.image_mut();
        words::same(image, image)
    });
    let dispatcher = Guarded::new(&[0; DISPATCHER_WORDS]);
    check(dispatcher.clone(), |lent| {
        words::dispatcher_start(7, lent.image_mut())
    });
    check(dispatcher.clone(), |lent| {
        words::dispatcher_add(lent.image_mut(), 0, 1)
    });
    check((dispatcher, 7, 7), |(lent, caller, slice)| {
        words::dispatcher_turn(lent.image_mut(), caller, slice)
    });
}

#[test]
fn safe_calls() {
    // The image is the call's own.
    check((), |_| start(&[]));
    for call in [segment, padding] {
        check(SafelyLent::new(), |lent| {
            call(&ROWS, &mut lent.cursors[0], 1, &mut lent.records)
        });
    }
    check(SafelyLent::new(), |lent| {
        execute(&ROWS, &[], 1, &mut lent.records)
    });
    check(SafelyLent::new(), |lent| {
        same_checkpoint(&lent.cursors[0], &lent.cursors[1])
    });
    // As for `start`.
    check((), |_| Dispatcher::start(7));
    let dispatcher = Dispatcher::new([0; DISPATCHER_WORDS]);
    check(dispatcher.clone(), |lent| lent.add(0, 1));
    check(dispatcher, |lent| lent.turn());
}
