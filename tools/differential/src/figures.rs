//! The run report by the words of its request alone.

/// The sum of counts. In u128 none wraps.
pub fn sum(counts: &[u64]) -> u128 {
    counts.iter().map(|&count| u128::from(count)).sum()
}

/// The hundredths of a mean: of the two whole numbers beside it the nearer one, and
/// of equally near ones the higher. No runs, which are refused, pass for one.
fn mean(sum: u128, runs: u128) -> u128 {
    let runs = runs.max(1);
    let below = 100 * sum / runs;
    let to_below = (100 * sum).abs_diff(below * runs);
    let to_above = (100 * sum).abs_diff((below + 1) * runs);
    if to_above <= to_below {
        below + 1
    } else {
        below
    }
}

/// Runs, live, records and mean.
pub fn figures(live: &[u64], records: &[u64]) -> [u128; 4] {
    let (runs, cycles) = (live.len() as u128, sum(live));
    [runs, cycles, sum(records), mean(cycles, runs)]
}

pub fn line([runs, live, records, mean]: [u128; 4]) -> String {
    format!("{runs},{live},{records},{mean}\n")
}

/// The number of the refusal, or 0, for a buffer of so many bytes. The lines are in
/// the order in which they are tested.
pub fn refusal(live: &[u64], records: &[u64], bytes: usize) -> u64 {
    let counts = || live.iter().chain(records);
    let table = [
        (9, live.len() != records.len()),
        (9, !(1..=65_536).contains(&live.len())),
        (10, counts().any(|&count| count > 1 << 32)),
        (6, bytes < line(figures(live, records)).len()),
    ];
    let line = table.iter().find(|(_, met)| *met);
    line.map_or(0, |(number, _)| *number)
}

#[cfg(test)]
mod tests {
    use super::*;

    /// The request's example, halves and numbers beside them, and the longest line.
    #[test]
    fn lines_by_hand() {
        let of = |live: &[u64]| line(figures(live, &vec![2; live.len()]));
        assert_eq!(of(&[0, 0, 0, 1, 0, 0, 0, 0]), "8,1,16,13\n");
        assert_eq!(of(&[3, 0, 0, 0, 0, 0, 0, 0]), "8,3,16,38\n");
        assert_eq!(of(&[1, 2, 2]), "3,5,6,167\n");
        assert_eq!(of(&[1, 0, 0]), "3,1,6,33\n");
        assert_eq!(of(&[0]), "1,0,2,0\n");
        let most = vec![1 << 32; 65_536];
        let longest = "65536,281474976710656,281474976710656,429496729600\n";
        assert_eq!(line(figures(&most, &most)), longest);
        assert_eq!(longest.len(), 51);
    }
}
