//! Some of the rounds that the program runs, and its wrong variants.

use differential::{notice, notice_at_limits, Lend, Report};

const ROUNDS: u64 = 500;
const SEED: u64 = 0x5445_5354;
/// How many of the first rounds must tell each wrong variant from the model.
const ENOUGH: u64 = 10;
const FIRST: u64 = 8000;

#[test]
fn random_rounds() {
    let mut report = Report::new(SEED);
    for number in 1..=ROUNDS {
        report.add_round(number, |lending| lending.library());
    }
    assert_eq!(report.verdict(), Ok(()), "{:?}", report.first());
}

#[test]
fn wrong_variants_are_noticed() {
    for noticed in notice(SEED, FIRST, ENOUGH) {
        let (functions, name) = (noticed.functions(), noticed.name);
        assert_eq!(noticed.rounds, ENOUGH, "{functions}: {name}");
    }
}

#[test]
fn wrong_limits_are_noticed() {
    for noticed in notice_at_limits(SEED) {
        let (functions, name) = (noticed.functions(), noticed.name);
        assert!(noticed.first.is_some(), "{functions}: {name}");
    }
}
