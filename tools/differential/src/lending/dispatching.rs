//! A fresh dispatcher, and an add or a turn of any dispatcher.

use super::Lend;
use crate::dispatch::{add_refusal, grant, sum, take, turn_refusal, Words, BUDGET, POSITION};
use crate::{Lent, Rng};
use magnetar_cpu::words;

#[derive(Clone, Copy)]
pub enum Step {
    Start { budget: u64 },
    Add { caller: u64, cycles: u64 },
    Turn,
}

#[derive(Clone)]
pub struct Dispatching {
    pub step: Step,
    pub dispatcher: Lent<u64>,
    /// These two are lent to turns only.
    pub caller: Lent<u64>,
    pub slice: Lent<u64>,
}

impl Dispatching {
    pub fn new(step: Step, dispatcher: &Words, rng: &mut Rng) -> Self {
        Dispatching {
            step,
            dispatcher: Lent::new(dispatcher, |_| rng.doubleword()),
            caller: Lent::buffer(1, rng),
            slice: Lent::buffer(1, rng),
        }
    }

    pub fn words(&self) -> &Words {
        self.dispatcher.words().try_into().expect("18 words")
    }

    pub fn words_mut(&mut self) -> &mut Words {
        self.dispatcher.words_mut().try_into().expect("18 words")
    }

    /// What the caller of an add would want.
    pub fn sum(&self) -> u128 {
        match self.step {
            Step::Add { caller, cycles } => sum(self.words(), caller, cycles),
            _ => 0,
        }
    }

    /// What a turn that is not refused leaves, given its grant.
    pub fn turn(&mut self, grant: Option<(u64, u64)>) {
        let (caller, slice) = grant.unwrap_or((16, 0));
        if let Some(grant) = grant {
            take(self.words_mut(), grant);
        }
        self.caller.words_mut()[0] = caller;
        self.slice.words_mut()[0] = slice;
    }
}

impl Lend for Dispatching {
    fn library(&mut self) -> u64 {
        let step = self.step;
        let dispatcher = self.dispatcher.words_mut().try_into().expect("18 words");
        let [caller, slice] =
            [&mut self.caller, &mut self.slice].map(|lent| &mut lent.words_mut()[0]);
        match step {
            Step::Start { budget } => {
                words::dispatcher_start(budget, dispatcher);
                0
            }
            Step::Add { caller, cycles } => words::dispatcher_add(dispatcher, caller, cycles),
            Step::Turn => words::dispatcher_turn(dispatcher, caller, slice),
        }
    }

    fn model(&mut self) -> u64 {
        match self.step {
            Step::Start { budget } => {
                *self.words_mut() = [0; 18];
                self.words_mut()[BUDGET] = budget;
                0
            }
            Step::Add { caller, cycles } => {
                let answer = add_refusal(self.words(), caller, cycles);
                if answer == 0 {
                    self.words_mut()[caller as usize] += cycles;
                }
                answer
            }
            Step::Turn => {
                let answer = turn_refusal(self.words());
                if answer == 0 {
                    self.turn(grant(self.words()));
                }
                answer
            }
        }
    }

    fn compare(&self, wanted: &Self) -> Result<(), String> {
        self.dispatcher.compare(&wanted.dispatcher, "dispatcher")?;
        self.caller.compare(&wanted.caller, "caller")?;
        self.slice.compare(&wanted.slice, "slice")
    }

    fn about(&self) -> String {
        let words = self.words();
        let (position, budget) = (words[POSITION], words[BUDGET]);
        match self.step {
            Step::Start { budget } => format!("budget {budget}"),
            Step::Add { caller, cycles } => {
                format!("caller {caller}, {cycles} cycles, position {position}")
            }
            Step::Turn => format!("position {position}, budget {budget}"),
        }
    }
}
