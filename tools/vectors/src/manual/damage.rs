//! A short list of cases with known damage, to test that a replay notices it. The
//! cases are those of an agreeing list and a differing one behind it. In order:
//!
//!  1. good
//!  2. a register gets a value that is off by one
//!  3. the number of a register is off by one
//!  4. a register change is left out
//!  5. a register change too many
//!  6. a register that is as before
//!  7. a register change stands twice
//!  8. a good store
//!  9. a RAM word gets a value that is off by one
//! 10. the number of a RAM word is off by one
//! 11. a RAM change is left out
//! 12. a good branch
//! 13. a branch is taken, or is not
//! 14. it is not said whether a branch is taken
//! 15. it is said twice
//! 16. it is said of another instruction
//! 17. a good difference
//! 18. a difference whose register has another value by the reference
//! 19. one whose RAM word has
//! 20. one whose next row has
//! 21. one in which the manual says what the reference has
//! 22. one without what the manual says
//! 23. one that says two things
//! 24. one that says nothing
//! 25. a good undefined encoding
//! 26. an undefined encoding with another value
//! 27. one of which the manual is said to say something
//! 28. one that has halted, and is said not to have
//! 29. no word
//! 30. a word has 33 bits
//! 31. a program of no words
//! 32. a program of nine words, of which one is there
//! 33. no cycles
//! 34. 65 cycles
//! 35. a cycle too few
//! 36. two registers before it in the wrong order
//! 37. a register before it that is zero
//! 38. x0 before it
//! 39. a RAM word before it that RAM does not have
//! 40. a line that is no line
//! 41. an empty line
//! 42. a digit is in upper case
//! 43. a number has a leading zero
//! 44. two spaces
//! 45. a number too many
//! 46. good
//! 47. the list ends in the middle of its last line

use super::line::MANUAL;
use crate::linedamage::apply;
use crate::linedamage::Damage::{
    self, Before, Cut, Flip, Keep, KeepWith, Last, Late, Less, Short, Text, Twice,
};
use crate::plan;

const PLAN: [Damage; 47] = [
    Keep,
    Flip("g", 2),
    Flip("g", 1),
    Short("g"),
    Last("g 1f 1\n"),
    Last("g 1f 0\n"),
    Twice("g"),
    KeepWith("r"),
    Flip("r", 2),
    Flip("r", 1),
    Short("r"),
    KeepWith("t"),
    Flip("t", 1),
    Short("t"),
    Twice("t"),
    Last("t 0\n"),
    KeepWith("d"),
    Text("g 1 80000000 ", " 80000000 ", " 80000001 "),
    Text("r 1 0 ", " 0 ", " 1 "),
    Flip("p", 1),
    Text("h 1 0", " 1 0", " 1 1"),
    Text("p 2 7", " 7", ""),
    Twice("p"),
    Short("h 1 0"),
    KeepWith("u"),
    Text("g 2 30\n", "30", "31"),
    Text("p 1\n", "\n", " 0\n"),
    Text("h 1\n", "1", "0"),
    Less("w"),
    Text("w fff", "w f", "w 1f"),
    Text("a 1 1\n", "a 1", "a 0"),
    Text("a 1 1\n", "a 1", "a 9"),
    Text("a 1 1\n", "1\n", "0\n"),
    Text("a 1 6\n", "6\n", "41\n"),
    Text("a 1 6\n", "6\n", "5\n"),
    Late("x"),
    Before("g", "x 1f 0\n"),
    Before("x", "x 0 1\n"),
    Text("m ff ", "m ff", "m 1ff"),
    Before("g", "y 1 2\n"),
    Before("g", "\n"),
    Text("x", "f", "F"),
    Text("w", "w ", "w 0"),
    Text("w", "w ", "w  "),
    Text("x", "\n", " 1\n"),
    Keep,
    Cut,
];

pub fn listing(list: &[u8]) -> Result<Vec<u8>, String> {
    plan::carry_out(&MANUAL, list, &PLAN, |&damage, part| {
        apply(&MANUAL, damage, part)
    })
}

#[cfg(test)]
mod tests {
    use super::*;
    use crate::linedamage::{expect_wrong, wrong_lines};
    use crate::manual::stored;

    const GOOD: [usize; 6] = [1, 8, 12, 17, 25, 46];

    fn damaged() -> Vec<u8> {
        let list = stored("qemu.txt") + &stored("differences.txt");
        listing(list.as_bytes()).unwrap()
    }

    #[test]
    fn each_damage_is_where_it_is_meant_to_be() {
        let expected = [
            (2, 5, "g 2 0\n"),
            (3, 5, "g 2 7fffffff\n"),
            (4, 5, ""),
            (5, 6, "g 1f 1\n"),
            (6, 6, "g 1f 0\n"),
            (7, 6, "g 7 7fffffffffffffff\n"),
            (9, 7, "r ff f1e2d3c4b5a69700\n"),
            (10, 8, "r 0 f1e2d3c4b5a697ff\n"),
            (11, 8, ""),
            (13, 4, "t 1\n"),
            (14, 4, ""),
            (15, 5, "t 0\n"),
            (16, 6, "t 0\n"),
            (18, 4, "g 1 80000001 ffffffff80000000\n"),
            (19, 4, "r 1 1 ab\n"),
            (20, 5, "p 3 7\n"),
            (21, 3, "h 1 1\n"),
            (22, 5, "p 2\n"),
            (23, 5, "p 5 0\n"),
            (24, 3, ""),
            (26, 5, "g 2 31\n"),
            (27, 4, "p 1 0\n"),
            (28, 3, "h 0\n"),
            (29, 2, "x 9 5a5a5a5aa5a5a5a5\n"),
            (30, 2, "w 1fff50193\n"),
            (31, 1, "a 0 1\n"),
            (32, 1, "a 9 1\n"),
            (33, 1, "a 1 0\n"),
            (34, 1, "a 1 41\n"),
            (35, 5, "g 2 80000000\n"),
            (36, 4, "x 1 80000000\n"),
            (37, 6, "x 1f 0\n"),
            (38, 3, "x 0 1\n"),
            (39, 6, "m 1ff ff7f80017fff80\n"),
            (40, 6, "y 1 2\n"),
            (41, 6, "\n"),
            (42, 3, "x 6 Ffffffffffffffff\n"),
            (43, 2, "w 07d09b3\n"),
            (44, 2, "w  8d8a33\n"),
            (45, 3, "x 9 7fffffff 1\n"),
            (47, 6, "g 17 17"),
        ];
        let found = wrong_lines(&MANUAL, &damaged());
        assert_eq!(found.len(), PLAN.len());
        expect_wrong(&found, &expected, &GOOD);
        assert_eq!(expected.len() + GOOD.len(), PLAN.len());
    }

    #[test]
    fn the_stored_list_is_this_one() {
        assert_eq!(damaged(), stored("damaged.txt").into_bytes());
    }

    #[test]
    fn a_short_list_is_refused() {
        let message = listing(stored("differences.txt").as_bytes()).unwrap_err();
        assert!(message.contains("allows KeepWith(\"t\")"), "{message}");
    }
}
