//! What the request promises of every list of adds and turns from a fresh dispatcher,
//! seen in the library's answers.

use differential::Rng;
use magnetar_cpu::words;

const LISTS: u64 = 2000;
const MOST_CALLS: usize = 200;
const SEED: u64 = 0x5455_524e_5300_0000;
/// A waiting caller is granted a slice within so many turns.
const TURNS: u64 = 16;

/// A list's answers: what each caller wants by them, for how many turns he has waited
/// while the budget lasted, and what was granted.
#[derive(Default)]
struct List {
    dispatcher: [u64; 18],
    wanted: [u128; 16],
    waited: [u64; 16],
    granted: u128,
    refused: usize,
    longest: u64,
}

impl List {
    fn of(budget: u64, rng: &mut Rng) -> Self {
        let mut list = List::default();
        words::dispatcher_start(budget, &mut list.dispatcher);
        let adds = 1 + rng.below(12);
        for _ in 0..rng.below(MOST_CALLS) {
            match rng.below(16) < adds {
                true => list.add(rng.below(17) as u64, cycles(rng)),
                false => list.turn(u128::from(budget) - list.granted),
            }
            let left = u128::from(list.dispatcher[17]);
            assert_eq!(list.granted + left, budget.into());
        }
        list
    }

    fn add(&mut self, caller: u64, cycles: u64) {
        match words::dispatcher_add(&mut self.dispatcher, caller, cycles) {
            0 => self.wanted[caller as usize] += u128::from(cycles),
            _ => self.refused += 1,
        }
    }

    /// While so much of the budget is left.
    fn turn(&mut self, left: u128) {
        let (mut caller, mut slice) = (0, 0);
        let answer = words::dispatcher_turn(&mut self.dispatcher, &mut caller, &mut slice);
        assert_eq!(answer, 0);
        for (turns, &wanted) in self.waited.iter_mut().zip(&self.wanted) {
            *turns += u64::from(left > 0 && wanted > 0);
        }
        if slice > 0 {
            let caller = caller as usize;
            self.granted += u128::from(slice);
            self.wanted[caller] -= u128::from(slice);
            self.longest = self.longest.max(self.waited[caller]);
            self.waited[caller] = 0;
        }
        let is_late = |&turns: &u64| turns >= TURNS;
        assert!(!self.waited.iter().any(is_late), "{:?}", self.waited);
    }
}

/// For one slice, for more, or for so many that they come to be refused.
fn cycles(rng: &mut Rng) -> u64 {
    match rng.below(8) {
        0 => 1 << 31,
        1 => rng.doubleword(),
        2 | 3 => rng.below(50_000) as u64,
        _ => rng.below(4097) as u64,
    }
}

#[test]
fn lists_share_the_budget_and_grant_in_time() {
    let (mut spent, mut refused, mut longest) = (0, 0, 0);
    for number in 0..LISTS {
        let rng = &mut Rng::new(SEED + number);
        let budget = [rng.below(1_000_000) as u64, rng.doubleword()][rng.below(2)];
        let list = List::of(budget, rng);
        spent += u64::from(list.granted == budget.into());
        refused += usize::from(list.refused > 0);
        longest = longest.max(list.longest);
    }
    // No more than that: a caller may have to wait so long.
    assert_eq!(longest, TURNS);
    assert!((100..LISTS - 100).contains(&spent), "{spent} spent");
    assert!(refused > 100, "{refused} with a refusal");
}
