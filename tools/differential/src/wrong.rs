//! Wrong variants of the calls, which the rounds must tell from the model. The
//! library is not called here.

mod calls;
mod cycles;
mod dispatchers;
mod executions;
mod expansions;
mod indexes;
mod judges;
mod limits;
mod reports;
mod sames;
mod starts;

use crate::rounds::run_round;
use crate::{Comparing, Dispatching, Executing, Expanding, Indexing, Judging};
use crate::{Function, Lending, Modelled, LIMITS};
use crate::{Reporting, Running, Starting};
use cycles::Cycle;

/// A variant's name, and how it changes what the model has done. A change is
/// given what was lent before the call, what is there after it, and the answer;
/// one of cycles is given every cycle of a segment or padding call.
type Variant<T> = (&'static str, T);
type OfExpand = fn(&Expanding, &mut Expanding, &mut u64);
type OfIsExpansion = fn(&Judging, &mut Judging, &mut u64);
type OfStart = fn(&Starting, &mut Starting, &mut u64);
type OfRun = fn(&Running, &mut Running, &mut u64);
type OfCycle = fn(&mut Cycle);
type OfExecute = fn(&Executing, &mut Executing, &mut u64);
type OfSame = fn(&Comparing, &mut Comparing, &mut u64);
type OfIndex = fn(&Indexing, &mut Indexing, &mut u64);
type OfReport = fn(&Reporting, &mut Reporting, &mut u64);
type OfDispatcher = fn(&Dispatching, &mut Dispatching, &mut u64);

#[derive(Clone, Copy)]
enum Change {
    Expand(OfExpand),
    IsExpansion(OfIsExpansion),
    Start(OfStart),
    Run(OfRun),
    Cycle(OfCycle),
    Execute(OfExecute),
    Same(OfSame),
    Index(OfIndex),
    Report(OfReport),
    DispatcherStart(OfDispatcher),
    DispatcherAdd(OfDispatcher),
    DispatcherTurn(OfDispatcher),
}

impl Change {
    fn functions(self) -> &'static [Function] {
        match self {
            Change::Expand(_) => &[Function::Expand],
            Change::IsExpansion(_) => &[Function::IsExpansion],
            Change::Start(_) => &[Function::Start],
            Change::Run(_) | Change::Cycle(_) => &[Function::Segment, Function::Padding],
            Change::Execute(_) => &[Function::Execute],
            Change::Same(_) => &[Function::Same],
            Change::Index(_) => &[Function::IndexBuild, Function::IndexAdd],
            Change::Report(_) => &[Function::Report],
            Change::DispatcherStart(_) => &[Function::DispatcherStart],
            Change::DispatcherAdd(_) => &[Function::DispatcherAdd],
            Change::DispatcherTurn(_) => &[Function::DispatcherTurn],
        }
    }

    /// Changes what the model has left and answered, if the call is of its kind.
    fn apply(self, before: &Lending, after: &mut Lending, answer: &mut u64) {
        match (self, before, after) {
            (Change::Expand(change), Lending::Expand(before), Lending::Expand(after)) => {
                change(before, after, answer);
            }
            (
                Change::IsExpansion(change),
                Lending::IsExpansion(before),
                Lending::IsExpansion(after),
            ) => change(before, after, answer),
            (Change::Start(change), Lending::Start(before), Lending::Start(after)) => {
                change(before, after, answer);
            }
            (Change::Run(change), Lending::Run(before), Lending::Run(after)) => {
                change(before, after, answer);
            }
            (Change::Cycle(change), Lending::Run(before), Lending::Run(after)) => {
                cycles::run_wrong(before, after, change);
            }
            (Change::Execute(change), Lending::Execute(before), Lending::Execute(after)) => {
                change(before, after, answer);
            }
            (Change::Same(change), Lending::Same(before), Lending::Same(after)) => {
                change(before, after, answer);
            }
            (Change::Index(change), Lending::Index(before), Lending::Index(after)) => {
                change(before, after, answer);
            }
            (Change::Report(change), Lending::Report(before), Lending::Report(after)) => {
                change(before, after, answer);
            }
            (
                Change::DispatcherStart(change)
                | Change::DispatcherAdd(change)
                | Change::DispatcherTurn(change),
                Lending::Dispatch(before),
                Lending::Dispatch(after),
            ) => change(before, after, answer),
            _ => (),
        }
    }
}

/// A wrong variant, and the rounds in which it was noticed.
pub struct Noticed {
    pub name: &'static str,
    pub first: Option<u64>,
    /// How many rounds, counted up to what is enough.
    pub rounds: u64,
    change: Change,
    last: Option<u64>,
}

impl Noticed {
    fn new<T>((name, change): Variant<T>, kind: fn(T) -> Change) -> Self {
        Noticed {
            name,
            first: None,
            rounds: 0,
            change: kind(change),
            last: None,
        }
    }

    /// The functions that the variant is of.
    pub fn functions(&self) -> String {
        let names = self
            .change
            .functions()
            .iter()
            .map(|function| function.name());
        names.collect::<Vec<_>>().join(", ")
    }

    fn look(&mut self, round: u64, made: &Modelled<Lending>) {
        let is_of_it = self.change.functions().contains(&made.before.function());
        if !is_of_it || self.last == Some(round) {
            return;
        }
        let mut found = made.after.clone();
        let mut answer = made.answer;
        self.change.apply(&made.before, &mut found, &mut answer);
        if made.compare(answer, &found).is_err() {
            self.first = self.first.or(Some(round));
            self.last = Some(round);
            self.rounds += 1;
        }
    }
}

fn variants() -> Vec<Noticed> {
    let mut all = Vec::new();
    all.extend(expansions::WRONG.map(|variant| Noticed::new(variant, Change::Expand)));
    all.extend(judges::WRONG.map(|variant| Noticed::new(variant, Change::IsExpansion)));
    all.extend(starts::WRONG.map(|variant| Noticed::new(variant, Change::Start)));
    all.extend(calls::WRONG.map(|variant| Noticed::new(variant, Change::Run)));
    all.extend(cycles::WRONG.map(|variant| Noticed::new(variant, Change::Cycle)));
    all.extend(executions::WRONG.map(|variant| Noticed::new(variant, Change::Execute)));
    all.extend(sames::WRONG.map(|variant| Noticed::new(variant, Change::Same)));
    all.extend(indexes::WRONG.map(|variant| Noticed::new(variant, Change::Index)));
    all.extend(reports::WRONG.map(|variant| Noticed::new(variant, Change::Report)));
    all.extend(dispatchers::STARTS.map(|variant| Noticed::new(variant, Change::DispatcherStart)));
    all.extend(dispatchers::ADDS.map(|variant| Noticed::new(variant, Change::DispatcherAdd)));
    all.extend(dispatchers::TURNS.map(|variant| Noticed::new(variant, Change::DispatcherTurn)));
    all
}

/// Looks for the variants that only calls at the limits can show.
pub fn notice_at_limits(seed: u64) -> Vec<Noticed> {
    let mut all = Vec::new();
    all.extend(limits::EXPANSIONS.map(|variant| Noticed::new(variant, Change::Expand)));
    all.extend(limits::CALLS.map(|variant| Noticed::new(variant, Change::Run)));
    all.extend(limits::EXECUTIONS.map(|variant| Noticed::new(variant, Change::Execute)));
    all.extend(limits::REPORTS.map(|variant| Noticed::new(variant, Change::Report)));
    run_round(seed, LIMITS, &mut |made| {
        all.iter_mut()
            .for_each(|noticed| noticed.look(LIMITS, made));
    });
    all
}

/// Looks for all other variants in the first rounds, until each is noticed in
/// `enough` of them.
pub fn notice(seed: u64, rounds: u64, enough: u64) -> Vec<Noticed> {
    let mut all = variants();
    for number in 1..=rounds {
        run_round(seed, number, &mut |made| {
            let left = all.iter_mut().filter(|noticed| noticed.rounds < enough);
            left.for_each(|noticed| noticed.look(number, made));
        });
        if all.iter().all(|noticed| noticed.rounds >= enough) {
            break;
        }
    }
    all
}

/// Changes an answer where the condition holds.
fn change(answer: &mut u64, right: u64, wrong: u64, condition: bool) {
    if *answer == right && condition {
        *answer = wrong;
    }
}

#[cfg(test)]
mod tests {
    use super::*;

    /// What changes nothing is not noticed, also where cycles are run singly.
    #[test]
    fn right_variants_are_not_noticed() {
        let right = [
            Change::Expand(|_, _, _| ()),
            Change::IsExpansion(|_, _, _| ()),
            Change::Start(|_, _, _| ()),
            Change::Run(|_, _, _| ()),
            Change::Cycle(|_| ()),
            Change::Execute(|_, _, _| ()),
            Change::Same(|_, _, _| ()),
            Change::Index(|_, _, _| ()),
            Change::Report(|_, _, _| ()),
            Change::DispatcherStart(|_, _, _| ()),
            Change::DispatcherAdd(|_, _, _| ()),
            Change::DispatcherTurn(|_, _, _| ()),
        ];
        let mut all = right.map(|change| Noticed::new(("right", change), |change| change));
        for number in 1..=500 {
            run_round(1, number, &mut |made| {
                all.iter_mut()
                    .for_each(|noticed| noticed.look(number, made));
            });
        }
        assert!(all.iter().all(|noticed| noticed.first.is_none()));
    }

    /// Rounds are counted once each, up to what is enough.
    #[test]
    fn rounds_are_counted() {
        for noticed in notice(1, 100, 2) {
            assert!(noticed.rounds <= 2);
            assert_eq!(noticed.first.is_some(), noticed.rounds > 0);
            assert!(noticed.first <= noticed.last);
            assert_eq!(noticed.first == noticed.last, noticed.rounds < 2);
        }
    }
}
