//! Rounds of random calls. Seed and number alone decide what is in a round: the
//! calls go on from what the model leaves, whatever else is compared with it.

use crate::dispatch::Words;
use crate::limits::run_limits;
use crate::programs::{any_word, program};
use crate::{counts, dispatchers, figures, logs, random};
use crate::{Call, Expansion, Lending, Modelled, Rng, Rom, Step};
use crate::{Comparing, Dispatching, Executing, Expanding, Indexing, Judging};
use crate::{Reporting, Running, Starting};
use magnetar_cpu::{Image, INDEX_PLACES, RECORD_WORDS};

/// What is handed every call of a round.
pub type Tell<'a> = &'a mut dyn FnMut(&Modelled<Lending>);

/// The round that has the calls at the limits; those of random calls come after
/// it.
pub const LIMITS: u64 = 0;

const MOST_CALLS: usize = 24;
/// The longest program of an expansion.
const LONGEST: usize = 60;
/// The longest program whose rows are judged by themselves.
const LONGEST_JUDGED: usize = 12;
/// The most adds and turns of a list on one dispatcher.
const MOST_STEPS: usize = 40;

/// Makes the calls of a round by the model and hands each to `tell`.
pub fn run_round(seed: u64, number: u64, tell: Tell) {
    // Mixed, because the rounds of two seeds must not be the same ones.
    let base = Rng::new(seed).doubleword();
    let mut rng = Rng::new(base.wrapping_add(number));
    if number == LIMITS {
        return run_limits(&mut rng, tell);
    }
    let rom = random::rom(&mut rng);
    let image = random::image(rom.rows.len(), &mut rng);
    let log = Vec::new();
    let mut round = Round {
        rng,
        rom,
        image,
        log,
    };
    for _ in 0..1 + round.rng.below(MOST_CALLS) {
        round.call(tell);
    }
}

/// What the calls of a round share: the ROM, the cursor that they hand on, and the
/// log of the last segment or padding call that was accepted.
struct Round {
    rng: Rng,
    rom: Rom,
    image: Image,
    log: Vec<u64>,
}

impl Round {
    fn call(&mut self, tell: Tell) {
        let rng = &mut self.rng;
        let kind = rng.below(22);
        // Some calls get other rows than the rest of the round.
        let damaged = (rng.below(12) == 0).then(|| random::damaged(&self.rom.rows, rng));
        let damaged = damaged.map(Rom::new);
        let rom = damaged.as_ref().unwrap_or(&self.rom);
        match kind {
            0..3 => expand(rng, tell),
            3..5 => judge(rng, tell),
            5 => self.image = start(rng, tell),
            6..11 => self.image = run(rom, &self.image, &mut self.log, rng, tell),
            11..14 => execute(rom, rng, tell),
            14..16 => compare(&self.image, rng, tell),
            16..18 => index(&self.log, rng, tell),
            18..20 => report(rng, tell),
            _ => dispatch(rng, tell),
        }
    }
}

fn expand(rng: &mut Rng, tell: Tell) {
    let length = match rng.below(12) {
        0 => 0,
        _ => 1 + rng.below(LONGEST),
    };
    let program = program(length, rng, any_word);
    let expansion = Expansion::of(&program);
    let rows = random::length_around(expansion.rows.len(), rng);
    let starts = random::length_around(length, rng);
    let expanding = Expanding::new(&program, &expansion, rows, starts, rng);
    tell(&Modelled::new(Lending::Expand(expanding)));
}

/// Two in three rows are damaged.
fn judge(rng: &mut Rng, tell: Tell) {
    let length = 1 + rng.below(LONGEST_JUDGED);
    let mut rows = Expansion::of(&program(length, rng, any_word)).rows;
    if rng.below(3) > 0 {
        rows = random::damaged(&rows, rng);
    }
    tell(&Modelled::new(Lending::IsExpansion(Judging::new(&rows))));
}

/// Gives the fresh cursor.
fn start(rng: &mut Rng, tell: Tell) -> Image {
    let input = random::input(rng);
    let modelled = Modelled::new(Lending::Start(Starting::new(&input, rng)));
    tell(&modelled);
    let Lending::Start(after) = modelled.after else {
        unreachable!("a call stays of its kind");
    };
    after.image()
}

/// Gives the cursor that the model leaves, and of an accepted call the log.
fn run(rom: &Rom, image: &Image, log: &mut Vec<u64>, rng: &mut Rng, tell: Tell) -> Image {
    let call = [Call::Segment, Call::Segment, Call::Padding][rng.below(3)];
    let length = random::length(image, rng);
    let room = random::room(length, rng);
    let running = Running::new(call, rom, image, length, room, rng);
    let modelled = Modelled::new(Lending::Run(running));
    tell(&modelled);
    let Lending::Run(after) = modelled.after else {
        unreachable!("a call stays of its kind");
    };
    if modelled.answer == 0 {
        *log = after.records.words()[..RECORD_WORDS * length as usize].to_vec();
    }
    after.image()
}

fn execute(rom: &Rom, rng: &mut Rng, tell: Tell) {
    let input = random::input(rng);
    let max_cycles = random::max_cycles(rng);
    let room = random::execute_room(max_cycles, rng);
    let executing = Executing::new(rom, &input, max_cycles, room, rng);
    tell(&Modelled::new(Lending::Execute(executing)));
}

/// The cursor that was handed on or a random one, beside one that differs in few
/// words.
fn compare(image: &Image, rng: &mut Rng, tell: Tell) {
    let a = match rng.below(2) {
        0 => *image,
        _ => random::image(LONGEST, rng),
    };
    let b = random::other_image(&a, rng);
    tell(&Modelled::new(Lending::Same(Comparing::new(&a, &b, rng))));
}

/// An index that held anything, built or added to.
fn index(log: &[u64], rng: &mut Rng, tell: Tell) {
    let log = logs::log(log, rng);
    let earlier = logs::earlier(log.len() / RECORD_WORDS, rng);
    let earlier = (rng.below(3) > 0).then_some(earlier);
    let places = random::length_around(INDEX_PLACES, rng);
    let index: Vec<u64> = (0..places).map(|_| random::word(rng)).collect();
    let indexing = Indexing::new(earlier, &log, &index, rng);
    tell(&Modelled::new(Lending::Index(indexing)));
}

fn report(rng: &mut Rng, tell: Tell) {
    let [live, records] = counts::lists(rng);
    let exact = figures::line(figures::figures(&live, &records)).len();
    let bytes = random::length_around(exact, rng);
    let reporting = Reporting::new(&live, &records, bytes, rng);
    tell(&Modelled::new(Lending::Report(reporting)));
}

/// An add or a turn of any dispatcher, or a list of them from a fresh one.
fn dispatch(rng: &mut Rng, tell: Tell) {
    let mut words = dispatchers::words(rng);
    let mut steps = 1;
    if rng.below(4) == 0 {
        let budget = dispatchers::amount(rng);
        words = step(Step::Start { budget }, &words, rng, tell);
        steps = rng.below(MOST_STEPS);
    }
    for _ in 0..steps {
        words = step(dispatchers::step(&words, rng), &words, rng, tell);
    }
}

/// Gives the words that the model leaves.
fn step(step: Step, words: &Words, rng: &mut Rng, tell: Tell) -> Words {
    let modelled = Modelled::new(Lending::Dispatch(Dispatching::new(step, words, rng)));
    tell(&modelled);
    let Lending::Dispatch(after) = modelled.after else {
        unreachable!("a call stays of its kind");
    };
    *after.words()
}

#[cfg(test)]
mod tests {
    use super::*;
    use crate::report::ANSWERS;
    use crate::{Function, Lend};

    /// Function, answer, text and some of the lent words of every call.
    fn calls(seed: u64, number: u64) -> Vec<(&'static str, u64, String, Vec<u64>)> {
        let mut calls = Vec::new();
        run_round(seed, number, &mut |made| {
            let before = &made.before;
            let name = before.function().name();
            calls.push((name, made.answer, before.about(), words_of(before)));
        });
        calls
    }

    fn words_of(lending: &Lending) -> Vec<u64> {
        match lending {
            Lending::Expand(lent) => lent.rows.all.clone(),
            Lending::IsExpansion(lent) => lent.rows.all.clone(),
            Lending::Start(lent) => lent.cursor.all.clone(),
            Lending::Run(lent) => lent.records.all.clone(),
            Lending::Execute(lent) => lent.records.all.clone(),
            Lending::Same(lent) => lent.b.all.clone(),
            Lending::Index(lent) => lent.index.all.clone(),
            Lending::Report(lent) => lent.live.all.clone(),
            Lending::Dispatch(lent) => lent.dispatcher.all.clone(),
        }
    }

    #[test]
    fn seed_and_number_decide_a_round() {
        assert!(calls(1, 7) == calls(1, 7));
        assert!(calls(1, 7) != calls(1, 8));
        // Seed and number are not simply added.
        assert!(calls(1, 8) != calls(2, 7));
    }

    /// But for refusal 2, which is for the limits.
    #[test]
    fn every_answer_comes_up() {
        let mut met = [[false; ANSWERS]; Function::ALL.len()];
        for number in 1..=1000 {
            run_round(1, number, &mut |made| {
                met[made.before.function() as usize][made.answer as usize] = true;
            });
        }
        for function in Function::ALL {
            for answer in 0..ANSWERS as u64 {
                let wanted = answer != 2 && function.answers().contains(&answer);
                let found = met[function as usize][answer as usize];
                assert_eq!(found, wanted, "{} answers {answer}", function.name());
            }
        }
    }
}
