//! Adds and turns on a dispatcher, timed in the library and in a dispatcher written in
//! Rust.

use crate::mix::timed;
use differential::Rng;
use magnetar_cpu::{
    DispatchRefusal, Dispatcher, Grant, CALLERS, DISPATCHER_WORDS, MAX_SLICE, MAX_WANTED,
};
use std::hint::black_box;
use std::ops::Range;
use std::time::Duration;

/// The calls of a pass. They are timed together: one is too short for the clock.
const CALLS: usize = 1024;
/// The passes of a round by each side, so that all but the first find the processor warm.
const PASSES: usize = 8;
const SEED: u64 = 0x5455_524e;

type Words = [u64; DISPATCHER_WORDS];
/// What a call answers; an add that is accepted grants nothing.
type Answer = Result<Option<Grant>, DispatchRefusal>;

/// The dispatcher as one would write it in Rust: every call changes it in place. It
/// answers what the library does.
struct InRust {
    wanted: [u64; CALLERS],
    position: u64,
    budget: u64,
}

impl InRust {
    fn new(words: Words) -> InRust {
        InRust {
            wanted: std::array::from_fn(|caller| words[caller]),
            position: words[Dispatcher::POSITION],
            budget: words[Dispatcher::BUDGET],
        }
    }

    fn words(&self) -> Words {
        let mut words = [0; DISPATCHER_WORDS];
        words[Dispatcher::WANTED].copy_from_slice(&self.wanted);
        words[Dispatcher::POSITION] = self.position;
        words[Dispatcher::BUDGET] = self.budget;
        words
    }

    fn add(&mut self, caller: usize, cycles: u64) -> Result<(), DispatchRefusal> {
        if caller >= CALLERS || self.position >= CALLERS as u64 {
            return Err(DispatchRefusal::NoCaller);
        }
        let wanted = &mut self.wanted[caller];
        let sum = wanted.saturating_add(cycles);
        if sum > MAX_WANTED {
            return Err(DispatchRefusal::TooMuchWanted);
        }
        *wanted = sum;
        Ok(())
    }

    fn turn(&mut self) -> Answer {
        if self.position >= CALLERS as u64 {
            return Err(DispatchRefusal::NoCaller);
        }
        if self.budget == 0 {
            return Ok(None);
        }
        let position = self.position as usize;
        let mut circle = (position..CALLERS).chain(0..position);
        let Some(caller) = circle.find(|&caller| self.wanted[caller] > 0) else {
            return Ok(None);
        };
        let cycles = MAX_SLICE.min(self.wanted[caller]).min(self.budget);
        self.wanted[caller] -= cycles;
        self.budget -= cycles;
        self.position = ((caller + 1) % CALLERS) as u64;
        Ok(Some(Grant { caller, cycles }))
    }
}

#[derive(Clone, Copy)]
enum Call {
    Add(usize, u64),
    Turn,
}

/// The calls of a side, which are made through pointers by both.
#[derive(Clone, Copy)]
struct Side<D> {
    new: fn(Words) -> D,
    add: fn(&mut D, usize, u64) -> Result<(), DispatchRefusal>,
    turn: fn(&mut D) -> Answer,
    words: fn(&D) -> Words,
}

const RUST: Side<InRust> = Side {
    new: InRust::new,
    add: InRust::add,
    turn: InRust::turn,
    words: InRust::words,
};
const LIBRARY: Side<Dispatcher> = Side {
    new: Dispatcher::new,
    add: Dispatcher::add,
    turn: Dispatcher::turn,
    words: |dispatcher| *dispatcher.image(),
};

impl<D> Side<D> {
    fn call(&self, dispatcher: &mut D, call: Call) -> Answer {
        match call {
            Call::Add(caller, cycles) => (self.add)(dispatcher, caller, cycles).map(|()| None),
            Call::Turn => (self.turn)(dispatcher),
        }
    }

    /// What the calls answer, and the dispatcher's words after them.
    fn answers(&self, words: Words, calls: &[Call]) -> (Vec<Answer>, Words) {
        let mut dispatcher = (self.new)(words);
        let answers = calls.iter().map(|&call| self.call(&mut dispatcher, call));
        (answers.collect(), (self.words)(&dispatcher))
    }

    fn time(self, words: Words, calls: &[Call]) -> Duration {
        let side = black_box(self);
        let mut dispatcher = (side.new)(black_box(words));
        let mut make = |&call| {
            let _ = black_box(side.call(&mut dispatcher, call));
        };
        timed(|| calls.iter().for_each(&mut make)).0
    }
}

/// A list of calls on a dispatcher, and the best times of a pass so far.
pub struct Dispatched {
    pub name: &'static str,
    words: Words,
    calls: Vec<Call>,
    /// Of the Rust dispatcher and of the library.
    best: [Duration; 2],
}

impl Dispatched {
    pub fn all() -> Result<Vec<Dispatched>, String> {
        let mut rng = Rng::new(SEED);
        let add = |i| Call::Add(i % CALLERS, 1);
        let any = |_| match rng.below(2) {
            0 => Call::Add(rng.below(CALLERS), rng.doubleword() % (2 * MAX_SLICE)),
            _ => Call::Turn,
        };
        [
            Dispatched::new("add", 0..0, (0..CALLS).map(add).collect()),
            Dispatched::new("turn, sixteen wait", 0..16, vec![Call::Turn; CALLS]),
            Dispatched::new("turn, one waits", 15..16, vec![Call::Turn; CALLS]),
            Dispatched::new("turn, nobody waits", 0..0, vec![Call::Turn; CALLS]),
            Dispatched::new("either, at random", 0..0, (0..CALLS).map(any).collect()),
        ]
        .into_iter()
        .collect()
    }

    /// These callers want as much as any may, and the budget is enough. An error if the
    /// library and the Rust dispatcher do not agree on the list.
    fn new(
        name: &'static str,
        waiting: Range<usize>,
        calls: Vec<Call>,
    ) -> Result<Dispatched, String> {
        let mut words = *Dispatcher::start(u64::MAX).image();
        words[waiting].fill(MAX_WANTED);
        if RUST.answers(words, &calls) != LIBRARY.answers(words, &calls) {
            return Err(format!("{name}: the library's dispatcher is wrong"));
        }
        Ok(Dispatched {
            name,
            words,
            calls,
            best: [Duration::MAX; 2],
        })
    }

    /// Times each side in turn, several passes in a row.
    pub fn round(&mut self) {
        let Dispatched {
            words, calls, best, ..
        } = self;
        for _ in 0..PASSES {
            best[0] = RUST.time(*words, calls).min(best[0]);
        }
        for _ in 0..PASSES {
            best[1] = LIBRARY.time(*words, calls).min(best[1]);
        }
    }

    /// The time of a call of the Rust dispatcher and of the library, in nanoseconds.
    pub fn nanoseconds(&self) -> [f64; 2] {
        self.best
            .map(|time| time.as_secs_f64() * 1e9 / CALLS as f64)
    }
}

#[cfg(test)]
mod tests {
    use super::*;

    const WANTED: [u64; 6] = [0, 1, MAX_SLICE + 1, MAX_WANTED, MAX_WANTED + 1, u64::MAX];
    const NUMBERS: [u64; 5] = [0, 5, 15, 16, u64::MAX];

    /// An add to each caller, and a turn after it, on one dispatcher.
    fn agree(words: Words) {
        for caller in NUMBERS {
            let caller = caller as usize;
            for cycles in [0, 1, MAX_WANTED, u64::MAX] {
                let calls = [Call::Add(caller, cycles), Call::Turn, Call::Turn];
                let answers = RUST.answers(words, &calls);
                let what = format!("{words:?}, caller {caller}, {cycles} cycles");
                assert_eq!(LIBRARY.answers(words, &calls), answers, "{what}");
            }
        }
    }

    #[test]
    fn the_rust_dispatcher_answers_what_the_library_does() {
        for (position, budget) in NUMBERS.iter().flat_map(|&p| NUMBERS.map(|b| (p, b))) {
            for wanted in WANTED {
                let mut words = [0; DISPATCHER_WORDS];
                words[5] = wanted;
                words[Dispatcher::POSITION] = position;
                words[Dispatcher::BUDGET] = budget;
                agree(words);
                words[Dispatcher::WANTED].fill(wanted);
                agree(words);
            }
        }
    }

    #[test]
    fn a_round_times_every_side() {
        for mut dispatched in Dispatched::all().expect("answers that agree") {
            dispatched.round();
            assert!(dispatched.best.iter().all(|&time| time < Duration::MAX));
        }
    }

    /// Every turn looks at as many callers as its list is named for, and the lists at
    /// random grant about as often as they do not.
    #[test]
    fn the_lists_grant_what_is_named() {
        let grants = |list: &Dispatched| {
            let (answers, _) = RUST.answers(list.words, &list.calls);
            answers.iter().flatten().flatten().count()
        };
        let lists = Dispatched::all().expect("answers that agree");
        let [add, sixteen, one, nobody, any] = lists.iter().map(grants).collect::<Vec<_>>()[..]
        else {
            panic!("five lists");
        };
        assert_eq!((add, sixteen, one, nobody), (0, CALLS, CALLS, 0));
        assert!(any > CALLS / 4, "{any} grants");
    }
}
