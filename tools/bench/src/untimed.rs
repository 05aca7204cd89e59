//! Segments that are run but not timed, so that valgrind can count instructions.

use crate::machine::{Machine, Side, LOOPS};

/// Segments of one loop by one side.
#[derive(Debug, PartialEq)]
pub struct Untimed {
    side: Side,
    /// Its place in `LOOPS`.
    of: usize,
    cycles: usize,
    calls: usize,
}

impl Untimed {
    /// From a side, the name of a loop, a length and a number of calls.
    pub fn read(arguments: &[String]) -> Option<Untimed> {
        let [side, name, cycles, calls] = arguments else {
            return None;
        };
        Some(Untimed {
            side: Side::named(side)?,
            of: LOOPS.iter().position(|of| of.name == name)?,
            cycles: cycles.parse().ok()?,
            calls: calls.parse().ok()?,
        })
    }

    pub fn run(&self) -> Result<(), String> {
        let mut machine = Machine::new(&LOOPS[self.of], self.cycles)?;
        (0..self.calls).for_each(|_| machine.run(self.side));
        Ok(())
    }
}

#[cfg(test)]
mod tests {
    use super::*;

    fn parsed(arguments: [&str; 4]) -> Option<Untimed> {
        Untimed::read(&arguments.map(str::to_string))
    }

    #[test]
    fn arguments() {
        let untimed = parsed(["library", "load and store", "64", "10"]).expect("right arguments");
        assert_eq!(LOOPS[untimed.of].name, "load and store");
        assert_eq!((untimed.side, untimed.cycles), (Side::Library, 64));
        assert_eq!(untimed.run(), Ok(()));
        assert_eq!(parsed(["Library", "ALU", "64", "10"]), None);
        assert_eq!(parsed(["rust", "alu", "64", "10"]), None);
        assert_eq!(parsed(["rust", "ALU", "-1", "10"]), None);
        assert_eq!(Untimed::read(&["rust".to_string()]), None);
    }
}
