//! A short list of traces with known damage, to test that a replay notices it.
//! In order:
//!
//!  1. good
//!  2. the live count is one less
//!  3. the count of records is the live count, which is no power of two
//!  4. the output is one more
//!  5. the last digit of a record is another
//!  6. a record has a digit more at its end
//!  7. a number of a record has a leading zero
//!  8. a record lacks a comma
//!  9. a record has a comma at its end
//! 10. good
//! 11. a record is left out
//! 12. the last record is left out
//! 13. a record stands twice
//! 14. a record too many, as the last line
//! 15. refused,1 where it is refused,0
//! 16. refused,0 where it is refused,1
//! 17. a letter is in upper case
//! 18. a refusal is followed by another line
//! 19. good
//! 20. a digit of the input is in upper case
//! 21. a digit of the input is not hexadecimal
//! 22. the input has an odd number of digits
//! 23. a line that is no line
//! 24. an empty line
//! 25. a line lacks the space after its letter
//! 26. no line that is printed
//! 27. good
//! 28. the list ends in the middle of its last line

use crate::linedamage::apply;
use crate::linedamage::Damage::{self, Before, Cut, Keep, Last, Less, Short, Text, Twice};
use crate::plan;
use crate::traceline::TRACES;

/// The most bytes of a case that is taken.
const MOST_BYTES: usize = 500;

const PLAN: [Damage; 28] = [
    Keep,
    Text("o 2,2,", "o 2", "o 1"),
    Text("o 3,4,", ",4,", ",3,"),
    Text("o 2,2,", ",0\n", ",1\n"),
    Text("o 0,", ",327680\n", ",327681\n"),
    Text("o 0,", ",327680\n", ",3276800\n"),
    Text("o 0,", ",0,", ",00,"),
    Text("o 0,", ",0,", ",0"),
    Text("o 0,", "8\n", "8,\n"),
    Keep,
    Less("o 0,"),
    Short("o 1,"),
    Twice("o 0,"),
    Last("o 0,0,0,0,0,32,0,0,0,0,0,0,0,0,0,0,134217728\n"),
    Text("o refused", "0", "1"),
    Text("o refused", "1", "0"),
    Text("o refused", "r", "R"),
    Before("o refused", "o refused,0\n"),
    Keep,
    Text("i ", "a", "A"),
    Text("i ", "i 0", "i g"),
    Text("i ", "\n", "0\n"),
    Before("o ", "x 1\n"),
    Before("o 0,", "\n"),
    Text("o 0,", "o ", "o"),
    Short("o refused"),
    Keep,
    Cut,
];

pub fn listing(list: &[u8]) -> Result<Vec<u8>, String> {
    plan::carry_out(&TRACES, list, &PLAN, |&damage, part| {
        (part.len() <= MOST_BYTES).then(|| apply(&TRACES, damage, part))?
    })
}

#[cfg(test)]
mod tests {
    use super::*;
    use crate::linedamage::{expect_wrong, wrong_lines};
    use crate::trace;

    const GOOD: [usize; 4] = [1, 10, 19, 27];
    const LATCH: &str = "o 0,0,0,0,0,32,0,0,0,0,0,0,0,0,0,0,134217728\n";

    fn damaged() -> Vec<u8> {
        listing(trace::listing().as_bytes()).unwrap()
    }

    #[test]
    fn each_damage_is_where_it_is_meant_to_be() {
        let expected = [
            (2, 2, "o 1,2,5\n"),
            (3, 2, "o 3,3,0\n"),
            (4, 2, "o 2,2,1\n"),
            (5, 3, "o 0,0,0,5,0,10,0,0,0,0,0,1,0,5,5,0,327681\n"),
            (6, 3, "o 0,0,0,5,0,10,0,0,0,0,0,1,0,5,5,0,3276800\n"),
            (7, 3, "o 0,00,0,0,0,10,0,0,0,0,0,0,0,0,0,0,134217728\n"),
            (8, 3, "o 0,00,5,0,10,0,0,0,0,0,1,0,5,5,0,327680\n"),
            (9, 3, "o 0,0,0,0,0,32,0,0,0,0,0,0,0,0,0,0,134217728,\n"),
            // Four equal records and one of them missing: the line behind.
            (11, 6, ""),
            (12, 10, ""),
            (13, 8, "o 0,0,0,0,0,32,0,0,0,0,0,0,0,0,0,0,0\n"),
            (14, 11, LATCH),
            (15, 2, "o refused,1\n"),
            (16, 2, "o refused,0\n"),
            (17, 2, "o Refused,0\n"),
            (18, 3, "o refused,0\n"),
            (21, 1, "i g8000000000000006f000000\n"),
            (22, 1, "i 060000000000000093801000eff2dfff0\n"),
            (23, 2, "x 1\n"),
            (24, 3, "\n"),
            (25, 3, "o0,0,0,1,0,1,0,0,0,0,0,1,0,1,1,0,327680\n"),
            (26, 2, ""),
        ];
        let found = wrong_lines(&TRACES, &damaged());
        assert_eq!(found.len(), PLAN.len());
        expect_wrong(&found, &expected, &GOOD);
        // The two with long lines.
        assert!(matches!(&found[19], Some((1, line)) if line.contains("cdAb")));
        assert!(matches!(&found[27], Some((6, line)) if !line.ends_with('\n')));
        assert_eq!(expected.len() + GOOD.len() + 2, PLAN.len());
    }

    #[test]
    fn the_list_is_short_and_the_same_again() {
        assert!(damaged().len() < 10_000);
        assert_eq!(damaged(), damaged());
    }

    #[test]
    fn a_short_list_is_refused() {
        let list = trace::listing();
        let first = TRACES.parts(list.as_bytes())[0].clone();
        let message = listing(&list.as_bytes()[first]).unwrap_err();
        assert!(message.contains("allows Text(\"o 2,2,\""), "{message}");
    }
}
