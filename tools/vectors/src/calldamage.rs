//! A short list of lists of calls with known damage, to test that a replay
//! notices it. In order:
//!
//!  1. good
//!  2. alu_out of the first record is off by one
//!  3. rd_old of the first record is off by one
//!  4. the last word of the first record is off by one
//!  5. the first cursor counts a cycle more or less
//!  6. the first cursor is halted, or is not
//!  7. next_fetch of the first cursor is off by one
//!  8. good
//!  9. a register gets a value that is off by one
//! 10. a register change is left out
//! 11. a register change stands twice
//! 12. a RAM word gets a value that is off by one
//! 13. a RAM change too many, as the last line
//! 14. a call is said to return 5 where it returns 6
//! 15. an accepted call has a buffer that is one word too short
//! 16. good
//! 17. a record is left out
//! 18. a record stands twice
//! 19. a padding call lacks what it returns
//! 20. a line that is no line
//! 21. an empty line
//! 22. a digit is in upper case
//! 23. micro_pc of the first cursor has a leading zero
//! 24. the first line counts a program word more or less
//! 25. a program word has more than 32 bits
//! 26. an input word is left out
//! 27. good
//! 28. the list ends in the middle of its last line

use crate::callline::CALLS;
use crate::linedamage::apply;
use crate::linedamage::Damage::{self, Before, Cut, Flip, Keep, Last, Less, Text, Twice};
use crate::list::fed_lines;
use crate::plan;

/// The most lines of a list that is taken.
const MOST_LINES: usize = 24;

const PLAN: [Damage; 28] = [
    Keep,
    Flip("r", 15),
    Flip("r", 5),
    Flip("r", 17),
    Flip("c", 2),
    Flip("c", 3),
    Flip("c", 5),
    Keep,
    Flip("g", 2),
    Less("g"),
    Twice("g"),
    Flip("m", 2),
    Last("m ff 1\n"),
    Text("s", " 6\n", " 5\n"),
    // Only of an odd number of words this takes one away.
    Flip("s", 2),
    Keep,
    Less("r"),
    Twice("r"),
    Text("p", " 0\n", "\n"),
    Before("c", "x 1 2\n"),
    Before("c", "\n"),
    Text("r", "f ", "F "),
    Text("c", "c ", "c 0"),
    Flip("l", 1),
    Text("w", "w ", "w 100000000"),
    Less("i"),
    Keep,
    Cut,
];

pub fn listing(list: &[u8]) -> Result<Vec<u8>, String> {
    let lines = |part: &[u8]| fed_lines(part).count();
    plan::carry_out(&CALLS, list, &PLAN, |&damage, part| {
        (lines(part) <= MOST_LINES).then(|| apply(&CALLS, damage, part))?
    })
}

#[cfg(test)]
mod tests {
    use super::*;
    use crate::callline::answers;
    use crate::calllist::{padding, segment, Call, CallList};
    use crate::interp;

    const GOOD: [usize; 4] = [1, 8, 16, 27];

    /// sd x1,8(x0); addi x1,x1,-1 and the calls that all damages need. The
    /// lines of the calls begin at line 5.
    fn example() -> String {
        answers(&CallList {
            program: vec![0x0010_3423, 0xfff0_8093],
            input: vec![1, 2],
            calls: vec![
                segment(3),
                Call {
                    room: 16,
                    ..segment(1)
                },
                padding(1),
            ],
        })
    }

    /// The line that a step, counted from one, makes wrong, counted from one,
    /// and what stands there then. A cut line has no line feed.
    fn wrong_line(step: usize) -> Option<(usize, String)> {
        let changed =
            apply(&CALLS, PLAN[step - 1], example().as_bytes()).expect("the damage can be done");
        let wrong = (CALLS.first_wrong)(&changed)?;
        let line = fed_lines(&changed).nth(wrong).unwrap_or(b"").to_vec();
        Some((wrong + 1, String::from_utf8(line).unwrap()))
    }

    #[test]
    fn each_damage_is_where_it_is_meant_to_be() {
        let expected = [
            (2, 7, "r 0 0 0 0 0 20 1 2 2 0 0 1 0 8 9 0 800800\n"),
            (3, 7, "r 0 0 0 0 1 20 1 2 2 0 0 1 0 8 8 0 800800\n"),
            (4, 7, "r 0 0 0 0 0 20 1 2 2 0 0 1 0 8 8 0 800801\n"),
            (5, 10, "c 1 2 0 0 1\n"),
            (6, 10, "c 1 3 1 0 1\n"),
            (7, 10, "c 1 3 0 0 0\n"),
            (9, 11, "g 1 fffffffffffffffe\n"),
            (10, 11, "m 1 ffffffffffffffff\n"),
            (11, 12, "g 1 ffffffffffffffff\n"),
            (12, 12, "m 1 fffffffffffffffe\n"),
            (13, 19, "m ff 1\n"),
            (14, 13, "s 1 10 5\n"),
            (15, 6, "s 3 32 0\n"),
            (17, 7, "r 1 0 0 ffffffffffffffff 0 1 0 1 0 0 0 0 0 ffffffffffffffff ffffffffffffffff 0 50000\n"),
            (18, 8, "r 0 0 0 0 0 20 1 2 2 0 0 1 0 8 8 0 800800\n"),
            (19, 15, "p 1 11\n"),
            (20, 10, "x 1 2\n"),
            (21, 10, "\n"),
            (22, 8, "r 1 0 0 fffffffffffffffF 0 1 0 1 0 0 0 0 0 ffffffffffffffff ffffffffffffffff 0 50000\n"),
            (23, 10, "c 01 3 0 0 1\n"),
            (24, 4, "i 1\n"),
            (25, 2, "w 100000000103423\n"),
            (26, 5, "s 3 33 0\n"),
            (28, 18, "g 1"),
        ];
        for (step, line, text) in expected {
            assert_eq!(wrong_line(step), Some((line, text.to_string())), "{step}");
        }
        for step in GOOD {
            assert_eq!(wrong_line(step), None, "{step}");
        }
        assert_eq!(expected.len() + GOOD.len(), PLAN.len());
    }

    #[test]
    fn four_lists_are_good_and_all_but_the_last_line_are_whole() {
        let list = interp::listing();
        let output = listing(list.as_bytes()).unwrap();
        let parts = CALLS.parts(&output);
        let good = |part| (CALLS.first_wrong)(&output[part]).is_none();
        let expected: Vec<bool> = (1..=PLAN.len()).map(|step| GOOD.contains(&step)).collect();
        assert_eq!(parts.into_iter().map(good).collect::<Vec<_>>(), expected);
        assert!(!output.ends_with(b"\n"));
        assert_eq!(listing(list.as_bytes()), Ok(output));
    }

    #[test]
    fn the_wrong_line_belongs_to_the_wrong_list() {
        let output = listing(interp::listing().as_bytes()).unwrap();
        let wrong = |part: std::ops::Range<usize>| {
            let part = &output[part];
            (CALLS.first_wrong)(part).is_none_or(|line| line < fed_lines(part).count())
        };
        assert!(CALLS.parts(&output).into_iter().all(wrong));
    }

    #[test]
    fn a_short_list_is_refused() {
        let message = listing(example().as_bytes()).unwrap_err();
        assert!(message.contains("allows Flip(\"r\", 15)"), "{message}");
    }
}
