//! The library's own form: what is lent are words and bytes, and the answer is a number.
//!
//! 0 is accepted; any other answer is the number of a [`Refusal`](crate::Refusal),
//! of an index that of an [`IndexRefusal`](crate::IndexRefusal), of a report that of a
//! [`ReportRefusal`](crate::ReportRefusal), of a dispatcher that of a
//! [`DispatchRefusal`](crate::DispatchRefusal), and then no word and no byte has
//! changed. The functions of the crate's root are made of these and are easier to use.
//!
//! All `unsafe` code of the crate is here. What the library asks of its caller
//! is what Rust asks of slices and arrays: pointers that are not null and
//! aligned, also where a length is 0, and nothing written that is lent twice.
//! The length of an image is not handed over: the functions that lend one compare
//! [`Cursor::WORDS`](crate::Cursor::WORDS) with [`cursor_words`] first, and panic if
//! they differ. The functions that lend the words of a dispatcher do the same: the
//! library tells no other length.

use crate::{Image, DISPATCHER_WORDS};
use image::{Lent, Shown};

type LentDispatcher<'a> = Lent<'a, DISPATCHER_WORDS>;

unsafe extern "C" {
    fn magnetar_expand(
        program: *const u32,
        program_len: usize,
        rows: *mut u64,
        rows_len: usize,
        starts: *mut u64,
        starts_len: usize,
        count: *mut u64,
    ) -> u64;
    fn magnetar_is_expansion(rows: *const u64, rows_len: usize) -> u64;
    fn magnetar_start(input: *const u64, input_len: usize, cursor: Lent);
    fn magnetar_segment(
        rows: *const u64,
        rows_len: usize,
        cursor: Lent,
        length: u64,
        records: *mut u64,
        records_len: usize,
    ) -> u64;
    fn magnetar_padding(
        rows: *const u64,
        rows_len: usize,
        cursor: Lent,
        length: u64,
        records: *mut u64,
        records_len: usize,
    ) -> u64;
    fn magnetar_execute(
        rows: *const u64,
        rows_len: usize,
        input: *const u64,
        input_len: usize,
        max_cycles: u64,
        records: *mut u64,
        records_len: usize,
        cursor: Lent,
        live: *mut u64,
        record_count: *mut u64,
    ) -> u64;
    fn magnetar_same(a: Shown, b: Shown) -> u64;
    fn magnetar_index_build(
        log: *const u64,
        log_len: usize,
        index: *mut u64,
        index_len: usize,
    ) -> u64;
    fn magnetar_index_add(
        log: *const u64,
        log_len: usize,
        before: u64,
        index: *mut u64,
        index_len: usize,
    ) -> u64;
    fn magnetar_report(
        live: *const u64,
        live_len: usize,
        records: *const u64,
        records_len: usize,
        line: *mut u8,
        line_len: usize,
        length: *mut u64,
    ) -> u64;
    fn magnetar_dispatcher_start(budget: u64, dispatcher: LentDispatcher);
    fn magnetar_dispatcher_add(dispatcher: LentDispatcher, caller: u64, cycles: u64) -> u64;
    fn magnetar_dispatcher_turn(
        dispatcher: LentDispatcher,
        caller: *mut u64,
        slice: *mut u64,
    ) -> u64;
    safe fn magnetar_cursor_words() -> u64;
}

/// Pointers to images and to the words of dispatchers. The library's functions take no
/// others, and one is made only after the lengths of a cursor have been compared: an
/// image has the words that the library takes a cursor to have. How many it takes a
/// dispatcher to have it does not tell, but one with other cursors is of another version.
mod image {
    use super::magnetar_cursor_words;
    use crate::{Cursor, Image};

    /// An image, or the words of a dispatcher, that the library may write.
    #[repr(transparent)]
    pub struct Lent<'a, const WORDS: usize = { Cursor::WORDS }>(&'a mut [u64; WORDS]);

    impl<'a, const WORDS: usize> Lent<'a, WORDS> {
        pub fn new(image: &'a mut [u64; WORDS]) -> Self {
            compare_lengths();
            Lent(image)
        }
    }

    /// An image that the library only reads.
    #[repr(transparent)]
    pub struct Shown<'a>(&'a Image);

    impl<'a> Shown<'a> {
        pub fn new(image: &'a Image) -> Self {
            compare_lengths();
            Shown(image)
        }
    }

    /// Panics if the library is of another version.
    fn compare_lengths() {
        let (theirs, ours) = (magnetar_cursor_words(), Cursor::WORDS);
        assert!(
            theirs == ours as u64,
            "the library takes a cursor to have {theirs} words, this crate {ours}: \
             they are not of one version; build both from one checkout"
        );
    }
}

/// [`expand`](crate::expand): the count of rows goes to `count`.
pub fn expand(program: &[u32], rows: &mut [u64], starts: &mut [u64], count: &mut u64) -> u64 {
    // SAFETY: pointers and lengths are those of slices and of a word, all
    // borrowed until the call returns, those written to by nothing else.
    unsafe {
        magnetar_expand(
            program.as_ptr(),
            program.len(),
            rows.as_mut_ptr(),
            rows.len(),
            starts.as_mut_ptr(),
            starts.len(),
            count,
        )
    }
}

/// [`is_expansion`](crate::is_expansion): the answer is 1 for yes, 0 for no.
pub fn is_expansion(rows: &[u64]) -> u64 {
    // SAFETY: pointer and length are those of a slice, and it is only read.
    unsafe { magnetar_is_expansion(rows.as_ptr(), rows.len()) }
}

/// [`start`](crate::start): every word of the image is written. There is no
/// answer, because nothing is refused.
pub fn start(input: &[u64], cursor: &mut Image) {
    // SAFETY: pointer and length are those of a slice, and the image has the
    // words of a cursor (`Lent`); both are borrowed until the call returns.
    unsafe { magnetar_start(input.as_ptr(), input.len(), Lent::new(cursor)) }
}

/// [`segment`](crate::segment): the halted word of an accepted call becomes 0
/// or 1, also at length 0.
pub fn segment(rows: &[u64], cursor: &mut Image, length: u64, records: &mut [u64]) -> u64 {
    // SAFETY: pointers and lengths are those of slices and of an image (`Lent`),
    // all borrowed until the call returns, those written to by nothing else.
    unsafe {
        magnetar_segment(
            rows.as_ptr(),
            rows.len(),
            Lent::new(cursor),
            length,
            records.as_mut_ptr(),
            records.len(),
        )
    }
}

/// [`padding`](crate::padding), with the halted word as for [`segment`].
pub fn padding(rows: &[u64], cursor: &mut Image, length: u64, records: &mut [u64]) -> u64 {
    // SAFETY: as for `segment`.
    unsafe {
        magnetar_padding(
            rows.as_ptr(),
            rows.len(),
            Lent::new(cursor),
            length,
            records.as_mut_ptr(),
            records.len(),
        )
    }
}

/// [`execute`](crate::execute): the cursor after padding goes to `cursor`, the
/// live count to `live`, and the record count to `record_count`.
pub fn execute(
    rows: &[u64],
    input: &[u64],
    max_cycles: u64,
    records: &mut [u64],
    cursor: &mut Image,
    live: &mut u64,
    record_count: &mut u64,
) -> u64 {
    // SAFETY: pointers and lengths are those of slices, of an image (`Lent`) and
    // of words, all borrowed until the call returns, those written to by nothing
    // else.
    unsafe {
        magnetar_execute(
            rows.as_ptr(),
            rows.len(),
            input.as_ptr(),
            input.len(),
            max_cycles,
            records.as_mut_ptr(),
            records.len(),
            Lent::new(cursor),
            live,
            record_count,
        )
    }
}

/// [`same_checkpoint`](crate::same_checkpoint): the answer is 1 for yes, 0 for
/// no. Any two halted words that are not 0 agree.
pub fn same(a: &Image, b: &Image) -> u64 {
    // SAFETY: both images have the words of a cursor (`Shown`), and they are only
    // read.
    unsafe { magnetar_same(Shown::new(a), Shown::new(b)) }
}

/// [`build_index`](crate::build_index).
pub fn index_build(log: &[u64], index: &mut [u64]) -> u64 {
    // SAFETY: pointers and lengths are those of slices, both borrowed until the
    // call returns, the one written to by nothing else.
    unsafe { magnetar_index_build(log.as_ptr(), log.len(), index.as_mut_ptr(), index.len()) }
}

/// [`add_to_index`](crate::add_to_index).
pub fn index_add(log: &[u64], before: u64, index: &mut [u64]) -> u64 {
    // SAFETY: as for `index_build`.
    unsafe {
        magnetar_index_add(
            log.as_ptr(),
            log.len(),
            before,
            index.as_mut_ptr(),
            index.len(),
        )
    }
}

/// [`report`](crate::report()): the line's length in bytes goes to `length`.
pub fn report(live: &[u64], records: &[u64], line: &mut [u8], length: &mut u64) -> u64 {
    // SAFETY: pointers and lengths are those of slices and of a word, all
    // borrowed until the call returns, those written to by nothing else.
    unsafe {
        magnetar_report(
            live.as_ptr(),
            live.len(),
            records.as_ptr(),
            records.len(),
            line.as_mut_ptr(),
            line.len(),
            length,
        )
    }
}

/// [`Dispatcher::start`](crate::Dispatcher::start): every word of the dispatcher is
/// written. There is no answer, because nothing is refused.
pub fn dispatcher_start(budget: u64, dispatcher: &mut [u64; DISPATCHER_WORDS]) {
    // SAFETY: the words are those of a dispatcher of this version, of which the library
    // is as far as it tells (`Lent`); they are borrowed until the call returns.
    unsafe { magnetar_dispatcher_start(budget, Lent::new(dispatcher)) }
}

/// [`Dispatcher::add`](crate::Dispatcher::add).
pub fn dispatcher_add(dispatcher: &mut [u64; DISPATCHER_WORDS], caller: u64, cycles: u64) -> u64 {
    // SAFETY: as for `dispatcher_start`.
    unsafe { magnetar_dispatcher_add(Lent::new(dispatcher), caller, cycles) }
}

/// [`Dispatcher::turn`](crate::Dispatcher::turn): the caller and the cycles of the grant
/// go to `caller` and `slice`, [`CALLERS`](crate::CALLERS) and 0 if nothing is granted.
pub fn dispatcher_turn(
    dispatcher: &mut [u64; DISPATCHER_WORDS],
    caller: &mut u64,
    slice: &mut u64,
) -> u64 {
    // SAFETY: as for `dispatcher_start`, and the other pointers are those of words,
    // borrowed and written to by nothing else until the call returns.
    unsafe { magnetar_dispatcher_turn(Lent::new(dispatcher), caller, slice) }
}

/// The words that the library takes a cursor's image to have. This can be called
/// with a library of any version.
pub fn cursor_words() -> u64 {
    magnetar_cursor_words()
}
