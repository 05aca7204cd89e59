//! The dispatcher: adds, turns, and runs that its grants drive. What the library answers at
//! its limits and on random lists of calls is tested by tools/c-boundary and
//! tools/differential.

use crate::guarded::Guarded;
use magnetar_cpu::{segment, start, words, Cursor};
use magnetar_cpu::{DispatchRefusal, Dispatcher, Grant};
use magnetar_cpu::{CALLERS, DISPATCHER_WORDS, MAX_SLICE, MAX_WANTED, RECORD_WORDS};

/// What is no caller, also where only a part of the number would be looked at.
const NO_CALLERS: [u64; 4] = [16, 17, 1 << 32, u64::MAX];

/// A dispatcher in which these callers want that many cycles.
fn filled(wanted: &[(usize, u64)], position: u64, budget: u64) -> Dispatcher {
    let mut image = [0; DISPATCHER_WORDS];
    for &(caller, cycles) in wanted {
        image[Dispatcher::WANTED][caller] = cycles;
    }
    image[Dispatcher::POSITION] = position;
    image[Dispatcher::BUDGET] = budget;
    Dispatcher::new(image)
}

/// The number that an add answers. All words but what the caller wants must be as they
/// were, and of a refused add all words. The safe form must say and leave the same.
#[track_caller]
fn add(dispatcher: &mut Dispatcher, caller: u64, cycles: u64) -> u64 {
    let mut lent = Guarded::new(dispatcher.image());
    let mut wanted = lent.clone();
    let answer = words::dispatcher_add(lent.image_mut(), caller, cycles);
    if answer == 0 {
        wanted.words_mut()[caller as usize] += cycles;
    }
    assert_eq!(lent, wanted, "answer {answer}");
    let safe = dispatcher.add(caller as usize, cycles);
    assert_eq!(safe.map_or_else(DispatchRefusal::number, |()| 0), answer);
    assert_eq!(*dispatcher.image(), lent.words());
    answer
}

/// Who is granted how much, or the number of a refusal. All words but what the caller
/// wants, the position and the budget must be as they were; where nothing is granted all
/// words, and where the turn is refused the caller and the slice too. The safe form must
/// say and leave the same.
#[track_caller]
fn turn(dispatcher: &mut Dispatcher) -> Result<Option<(usize, u64)>, u64> {
    let mut lent = Guarded::new(dispatcher.image());
    let (mut caller, mut slice) = (Guarded::buffer(1), Guarded::buffer(1));
    let before = (lent.clone(), caller.clone(), slice.clone());
    let answer = words::dispatcher_turn(
        lent.image_mut(),
        &mut caller.words_mut()[0],
        &mut slice.words_mut()[0],
    );
    let granted = (caller.words()[0], slice.words()[0]);
    let mut wanted = before.clone();
    if answer == 0 {
        let (caller, slice) = granted;
        (wanted.1, wanted.2) = (wanted.1.after(&[caller]), wanted.2.after(&[slice]));
        if granted != (CALLERS as u64, 0) {
            let image = wanted.0.words_mut();
            image[caller as usize] -= slice;
            image[Dispatcher::BUDGET] -= slice;
            image[Dispatcher::POSITION] = (caller + 1) % 16;
        }
    }
    assert_eq!((&lent, caller, slice), (&wanted.0, wanted.1, wanted.2));
    let grant = (granted.1 != 0).then_some((granted.0 as usize, granted.1));
    let outcome = if answer == 0 { Ok(grant) } else { Err(answer) };
    let safe = dispatcher.turn().map_err(DispatchRefusal::number);
    let safe = safe.map(|grant| grant.map(|Grant { caller, cycles }| (caller, cycles)));
    assert_eq!(safe, outcome);
    assert_eq!(*dispatcher.image(), lent.words());
    outcome
}

/// So many turns, or fewer if one grants nothing.
#[track_caller]
fn turns(dispatcher: &mut Dispatcher, most: usize) -> Vec<(usize, u64)> {
    let granted = (0..most).map_while(|_| turn(dispatcher).expect("accepted"));
    granted.collect()
}

#[test]
fn a_fresh_dispatcher() {
    for budget in [0, 10_000, u64::MAX] {
        let mut lent = Guarded::buffer(DISPATCHER_WORDS);
        words::dispatcher_start(budget, lent.image_mut());
        let mut fresh = [0; DISPATCHER_WORDS];
        fresh[17] = budget;
        assert_eq!(lent, Guarded::new(&fresh));
        let mut dispatcher = Dispatcher::start(budget);
        assert_eq!(*dispatcher.image(), fresh);
        assert_eq!(turn(&mut dispatcher), Ok(None));
    }
}

/// In circle order from caller 0 on, whoever added first, and each again after the others.
#[test]
fn sixteen_waiting() {
    let mut dispatcher = Dispatcher::start(100_000);
    for caller in (0..CALLERS).rev() {
        let cycles = MAX_SLICE + 1 + caller as u64;
        assert_eq!(add(&mut dispatcher, caller as u64, cycles), 0);
    }
    let full = (0..CALLERS).map(|caller| (caller, MAX_SLICE));
    let rest = (0..CALLERS).map(|caller| (caller, 1 + caller as u64));
    let wanted: Vec<_> = full.chain(rest).collect();
    assert_eq!(turns(&mut dispatcher, 40), wanted);
    let left = 100_000 - 16 * MAX_SLICE - 136;
    assert_eq!(dispatcher, filled(&[], 0, left));
}

#[test]
fn one_waiting() {
    let mut dispatcher = Dispatcher::start(u64::MAX);
    assert_eq!(add(&mut dispatcher, 7, 2 * MAX_SLICE), 0);
    assert_eq!(turns(&mut dispatcher, 9), [(7, MAX_SLICE), (7, MAX_SLICE)]);
    assert_eq!(dispatcher, filled(&[], 8, u64::MAX - 2 * MAX_SLICE));
}

#[test]
fn a_budget_that_ends_in_a_slice() {
    let mut dispatcher = Dispatcher::start(4099);
    assert_eq!(add(&mut dispatcher, 2, 5000), 0);
    assert_eq!(turns(&mut dispatcher, 2), [(2, 4096), (2, 3)]);
    assert_eq!(turn(&mut dispatcher), Ok(None));
    assert_eq!(dispatcher, filled(&[(2, 901)], 3, 0));
}

#[test]
fn the_sum_that_a_caller_wants() {
    let mut dispatcher = Dispatcher::start(MAX_SLICE);
    let answers = [MAX_WANTED - 1, 2, 1, 0, 1, u64::MAX].map(|n| add(&mut dispatcher, 5, n));
    assert_eq!(answers, [0, 12, 0, 0, 12, 12]);
    assert_eq!(dispatcher.wanted(5), MAX_WANTED);
    assert_eq!(add(&mut dispatcher, 6, MAX_WANTED + 1), 12);
    assert_eq!(turn(&mut dispatcher), Ok(Some((5, MAX_SLICE))));
    assert_eq!(add(&mut dispatcher, 5, MAX_SLICE), 0);
    assert_eq!(dispatcher, filled(&[(5, MAX_WANTED)], 6, 0));
    // More than that is refused to every add, and to no turn.
    for wanted in [MAX_WANTED + 1, u64::MAX] {
        let mut dispatcher = filled(&[(5, wanted)], 0, 10);
        let answers = [0, 1, u64::MAX].map(|cycles| add(&mut dispatcher, 5, cycles));
        assert_eq!(answers, [12, 12, 12]);
        assert_eq!(turn(&mut dispatcher), Ok(Some((5, 10))));
    }
}

#[test]
fn the_circle() {
    let mut dispatcher = filled(&[(0, 5), (15, 5)], 15, 100);
    assert_eq!(turns(&mut dispatcher, 9), [(15, 5), (0, 5)]);
    assert_eq!(dispatcher.position(), 1);
    let mut dispatcher = filled(&[(8, 1)], 9, 100);
    assert_eq!(turn(&mut dispatcher), Ok(Some((8, 1))));
    assert_eq!(dispatcher.position(), 9);
    // An add in between does not move the position: 3 is next, then the circle goes on.
    let mut dispatcher = filled(&[(2, 9000), (3, 1)], 0, u64::MAX);
    assert_eq!(turn(&mut dispatcher), Ok(Some((2, MAX_SLICE))));
    assert_eq!(add(&mut dispatcher, 1, 1), 0);
    assert_eq!(turns(&mut dispatcher, 3), [(3, 1), (1, 1), (2, MAX_SLICE)]);
}

/// Without budget or without anybody who wants any, at every position.
#[test]
fn turns_that_grant_nothing() {
    for position in 0..CALLERS as u64 {
        for mut dispatcher in [
            filled(&[(0, 1), (9, u64::MAX)], position, 0),
            filled(&[], position, u64::MAX),
        ] {
            assert_eq!(turn(&mut dispatcher), Ok(None));
        }
    }
}

#[test]
fn no_callers() {
    for beyond in NO_CALLERS {
        let mut dispatcher = filled(&[(0, u64::MAX)], 0, 100);
        for cycles in [0, 1, u64::MAX] {
            assert_eq!(add(&mut dispatcher, beyond, cycles), 11);
        }
        for budget in [0, 100] {
            for wanted in [0, 1, u64::MAX] {
                let mut dispatcher = filled(&[(0, wanted)], beyond, budget);
                let answers = [0, 16].map(|caller| add(&mut dispatcher, caller, 1));
                assert_eq!(answers, [11, 11]);
                assert_eq!(turn(&mut dispatcher), Err(11));
            }
        }
    }
}

/// Each says what was wrong.
#[test]
fn refusals() {
    let mut dispatcher = filled(&[(4, MAX_WANTED)], 0, 1);
    let refusals = [(16, 1), (4, 1)].map(|(caller, cycles)| {
        let answer = dispatcher.add(caller, cycles);
        answer.expect_err("a reason to refuse")
    });
    assert_eq!(refusals, DispatchRefusal::ALL);
    assert_eq!(refusals.map(DispatchRefusal::number), [11, 12]);
    let texts = [
        "the caller or the circle position is 16 or above",
        "the sum that the caller wants would be over 4294967296",
    ];
    assert_eq!(refusals.map(|refusal| refusal.to_string()), texts);
}

/// Lists of adds; each is followed by a turn, and the last by as many as grant anything.
type Schedule<'a> = &'a [&'a [(u64, u64)]];

/// The slices, log and last cursor of caller 3, where every grant of the schedule is run
/// on the cursor of its caller.
fn driven(rows: &[u64], schedule: Schedule) -> (Vec<u64>, Vec<u64>, Cursor) {
    let mut cursors: [Cursor; CALLERS] = std::array::from_fn(|caller| start(&[caller as u64]));
    let mut dispatcher = Dispatcher::start(20_000);
    let (mut slices, mut log) = (Vec::new(), Vec::new());
    let mut records = vec![0; RECORD_WORDS * MAX_SLICE as usize];
    let mut run = |(caller, cycles): (usize, u64)| {
        let answer = segment(rows, &mut cursors[caller], cycles, &mut records);
        assert_eq!(answer, Ok(()));
        if caller == 3 {
            slices.push(cycles);
            log.extend(&records[..RECORD_WORDS * cycles as usize]);
        }
    };
    for adds in schedule {
        for &(caller, cycles) in *adds {
            assert_eq!(add(&mut dispatcher, caller, cycles), 0);
        }
        turns(&mut dispatcher, 1).into_iter().for_each(&mut run);
    }
    turns(&mut dispatcher, 9).into_iter().for_each(&mut run);
    (slices, log, cursors[3].clone())
}

/// Two schedules that grant caller 3 as much, in other slices and among other callers:
/// its log and its cursor are the same, and those of one call.
#[test]
fn as_much_in_other_slices() {
    // sd x1, 8(x1); addi x1, x1, 8; jal x0, to the first row
    let rows = [0x0010_b423, 0x0080_8093, 0xff9f_f06f];
    let alone: Schedule = &[&[(3, 5000)]];
    let among: Schedule = &[
        &[(9, 6000), (3, 10)],
        &[(0, 4097), (3, 700)],
        &[(15, 1)],
        &[(3, 4290)],
    ];
    let (slices, log, cursor) = driven(&rows, alone);
    assert_eq!(slices, [4096, 904]);
    let (other_slices, other_log, other_cursor) = driven(&rows, among);
    assert_eq!(other_slices, [10, 4096, 894]);
    assert!(log == other_log);
    assert_eq!(cursor, other_cursor);
    let mut whole = vec![0; RECORD_WORDS * 5000];
    let mut once = start(&[3]);
    assert_eq!(segment(&rows, &mut once, 5000, &mut whole), Ok(()));
    assert!(log == whole);
    assert_eq!(cursor, once);
}

#[test]
fn dispatchers_as_text() {
    let waiting = filled(&[(3, 904), (9, 1)], 4, 5904);
    assert_eq!(waiting.to_string(), "position 4, budget 5904; waiting 3 9");
    let nobody = Dispatcher::start(7);
    assert_eq!(nobody.to_string(), "position 0, budget 7; waiting none");
    assert_eq!(
        format!("{waiting:?}"),
        "Dispatcher { wanted: {3: 904, 9: 1}, position: 4, budget: 5904 }"
    );
}

#[test]
fn dispatchers_as_words() {
    let image: [u64; DISPATCHER_WORDS] = std::array::from_fn(|place| 100 + place as u64);
    let dispatcher = Dispatcher::from(image);
    let wanted: Vec<u64> = (0..CALLERS).map(|c| dispatcher.wanted(c)).collect();
    assert_eq!(wanted, image[..16]);
    assert_eq!((dispatcher.position(), dispatcher.budget()), (116, 117));
    for (place, &word) in image.iter().enumerate() {
        let mut other = dispatcher.clone();
        assert_eq!(other, dispatcher);
        other.image_mut()[place] = word + 1;
        assert_ne!(other, dispatcher);
        assert_eq!(<[u64; DISPATCHER_WORDS]>::from(other)[place], word + 1);
    }
}
