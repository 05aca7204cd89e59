//! The targets, and which of them are missed.

/// The least that is wanted. A ratio holds on any machine; a speed does not.
pub struct Target {
    pub least: f64,
    is_ratio: bool,
}

/// The library's speed over that of the reference, for every mix.
pub const RATIO: Target = Target {
    least: 2.0,
    is_ratio: true,
};
/// Rows a nanosecond, for the first mix.
pub const ROWS: Target = Target {
    least: 1.0,
    is_ratio: false,
};

/// The library's speed over that of the reference, for every loop.
pub const RUN: Target = Target {
    least: 1.0,
    is_ratio: true,
};
/// The same, where the reference's records are packed into words too.
pub const PACKED: Target = Target {
    least: 2.0,
    is_ratio: true,
};
/// The speed of the library's index over that of one in Rust, for every log: not slower,
/// but for what two runs of the same code differ by.
pub const INDEX: Target = Target {
    least: 0.97,
    is_ratio: true,
};

/// The speed of the library's report over that of one in Rust, for every number of runs.
pub const REPORT: Target = Target {
    least: 1.0,
    is_ratio: true,
};

/// A target that was missed.
pub struct Missed {
    text: String,
    is_ratio: bool,
    /// How much of the target was reached, in percent.
    reached: f64,
}

/// Whether a target is met, in a word; if not, it is added to those missed.
pub fn state(name: &str, value: f64, target: &Target, missed: &mut Vec<Missed>) -> &'static str {
    let Target { least, is_ratio } = *target;
    if value >= least {
        return "ok";
    }
    let text = format!("{name}: {value:.2}, not {least}");
    let reached = 100.0 * value / least;
    missed.push(Missed {
        text,
        is_ratio,
        reached,
    });
    "missed"
}

/// An error if a target that counts was missed by more than the slack, which is
/// in percent. Targets other than ratios count if they are required.
pub fn judge(missed: &[Missed], require: bool, slack: f64) -> Result<(), String> {
    let counted = missed
        .iter()
        .filter(|missed| (missed.is_ratio || require) && missed.reached < 100.0 - slack);
    let texts: Vec<&str> = counted.map(|missed| missed.text.as_str()).collect();
    match texts.is_empty() {
        true => Ok(()),
        false => Err(format!("targets missed: {}", texts.join("; "))),
    }
}

#[cfg(test)]
mod tests {
    use super::*;

    fn missed(value: f64, target: &Target) -> Vec<Missed> {
        let mut missed = Vec::new();
        let word = state("a", value, target, &mut missed);
        assert_eq!(word == "missed", missed.len() == 1);
        missed
    }

    #[test]
    fn a_missed_ratio_always_counts() {
        for require in [false, true] {
            assert_eq!(judge(&missed(2.0, &RATIO), require, 0.0), Ok(()));
            let judged = judge(&missed(1.5, &RATIO), require, 0.0);
            assert_eq!(judged, Err("targets missed: a: 1.50, not 2".to_string()));
        }
    }

    #[test]
    fn a_missed_speed_counts_where_it_is_required() {
        assert_eq!(judge(&missed(1.0, &ROWS), true, 0.0), Ok(()));
        assert_eq!(judge(&missed(0.5, &ROWS), false, 0.0), Ok(()));
        assert!(judge(&missed(0.5, &ROWS), true, 0.0).is_err());
    }

    #[test]
    fn slack_is_a_part_of_the_target() {
        assert_eq!(judge(&missed(1.51, &RATIO), false, 25.0), Ok(()));
        assert!(judge(&missed(1.49, &RATIO), false, 25.0).is_err());
    }
}
