//! Damages a good list by a plan.

use crate::list::ListKind;
use std::fmt::Debug;

/// Each step of the plan takes the first part that it can be done to and that
/// has not been used yet. `apply` gives the part as the step leaves it.
pub fn carry_out<Step: Debug>(
    kind: &ListKind,
    list: &[u8],
    plan: &[Step],
    apply: impl Fn(&Step, &[u8]) -> Option<Vec<u8>>,
) -> Result<Vec<u8>, String> {
    let mut unused = kind.parts(list);
    let mut output = Vec::new();
    for step in plan {
        let (index, damaged) = unused
            .iter()
            .enumerate()
            .find_map(|(index, part)| Some((index, apply(step, &list[part.clone()])?)))
            .ok_or(format!("no unused part of the list allows {step:?}"))?;
        unused.remove(index);
        output.extend(damaged);
    }
    Ok(output)
}

#[cfg(test)]
mod tests {
    use super::*;
    use crate::list::WORDS;

    /// A step wants the beginning of a line and puts an exclamation mark there.
    fn apply(wanted: &&str, line: &[u8]) -> Option<Vec<u8>> {
        let rest = line.strip_prefix(wanted.as_bytes())?;
        Some([b"!", rest].concat())
    }

    #[test]
    fn each_step_takes_the_first_unused_part() {
        let list = b"aa\nab\nb\nac\n";
        let carried = |plan: &[&str]| carry_out(&WORDS, list, plan, apply);
        let output = carried(&["b", "a", "a"]).unwrap();
        assert_eq!(output, b"!\n!a\n!b\n");
        let message = carried(&["b", "b"]).unwrap_err();
        assert_eq!(message, "no unused part of the list allows \"b\"");
    }
}
