//! The dispatcher by the words of its request alone. Its words are what each of the
//! sixteen callers wants, the circle position and the budget.

pub type Words = [u64; 18];
pub const POSITION: usize = 16;
pub const BUDGET: usize = 17;

/// What a caller wants. One that there is not, who is refused, passes for one who wants
/// none.
pub fn wanted(words: &Words, caller: u64) -> u64 {
    match caller {
        0..16 => words[caller as usize],
        _ => 0,
    }
}

/// What a caller would want with so many cycles more. In u128 no sum wraps.
pub fn sum(words: &Words, caller: u64, cycles: u64) -> u128 {
    u128::from(wanted(words, caller)) + u128::from(cycles)
}

/// The number of an add's refusal, or 0. The lines are in the order in which they are
/// tested.
pub fn add_refusal(words: &Words, caller: u64, cycles: u64) -> u64 {
    let table = [
        (11, caller >= 16),
        (11, words[POSITION] >= 16),
        (12, sum(words, caller, cycles) > 1 << 32),
    ];
    let line = table.iter().find(|(_, met)| *met);
    line.map_or(0, |(number, _)| *number)
}

pub fn turn_refusal(words: &Words) -> u64 {
    match words[POSITION] {
        0..16 => 0,
        _ => 11,
    }
}

/// The next caller who wants any, from `first` on and after the last from 0 on.
pub fn next_waiting(words: &Words, first: u64) -> Option<u64> {
    let mut circle = (first..16).chain(0..first);
    circle.find(|&caller| wanted(words, caller) > 0)
}

/// The slice of a caller who wants any.
pub fn slice(words: &Words, caller: u64) -> u64 {
    wanted(words, caller).min(words[BUDGET]).min(4096)
}

/// Whom a turn that is not refused grants a slice, and which; none if it grants nothing.
pub fn grant(words: &Words) -> Option<(u64, u64)> {
    let caller = next_waiting(words, words[POSITION])?;
    (words[BUDGET] > 0).then(|| (caller, slice(words, caller)))
}

/// What the grant leaves.
pub fn take(words: &mut Words, (caller, slice): (u64, u64)) {
    words[caller as usize] -= slice;
    words[BUDGET] -= slice;
    words[POSITION] = if caller == 15 { 0 } else { caller + 1 };
}

#[cfg(test)]
mod tests {
    use super::*;

    /// A list of adds, and the grants of the turns after it until one grants nothing.
    fn grants(budget: u64, adds: &[(u64, u64)]) -> (Vec<(u64, u64)>, Words) {
        let mut words = [0; 18];
        words[BUDGET] = budget;
        for &(caller, cycles) in adds {
            assert_eq!(add_refusal(&words, caller, cycles), 0);
            words[caller as usize] += cycles;
        }
        let mut grants = Vec::new();
        while let Some(granted) = grant(&words) {
            take(&mut words, granted);
            grants.push(granted);
        }
        (grants, words)
    }

    #[test]
    fn turns_by_hand() {
        let (found, left) = grants(20_000, &[(15, 5000), (0, 4097), (7, 1)]);
        let wanted = [(0, 4096), (7, 1), (15, 4096), (0, 1), (15, 904)];
        assert_eq!(found, wanted);
        assert_eq!((left[POSITION], left[BUDGET]), (0, 10_902));
        // The budget ends within a slice.
        let (found, left) = grants(4100, &[(3, 4096), (4, 4096), (2, 9)]);
        assert_eq!(found, [(2, 9), (3, 4091)]);
        assert_eq!((left[3], left[4], left[POSITION]), (5, 4096, 4));
        assert_eq!(grants(0, &[(3, 1)]).0, []);
    }

    #[test]
    fn refusals_by_hand() {
        let mut words = [0; 18];
        words[5] = 1 << 32;
        words[6] = u64::MAX;
        let adds = [
            (5, 0, 0),
            (5, 1, 12),
            (6, 0, 12),
            (6, 1, 12),
            (4, 1 << 32, 0),
            (4, (1 << 32) + 1, 12),
            (16, u64::MAX, 11),
        ];
        for (caller, cycles, answer) in adds {
            assert_eq!(add_refusal(&words, caller, cycles), answer, "{caller}");
        }
        assert_eq!(turn_refusal(&words), 0);
        words[POSITION] = 16;
        assert_eq!(add_refusal(&words, 6, 1), 11);
        assert_eq!(turn_refusal(&words), 11);
    }
}
