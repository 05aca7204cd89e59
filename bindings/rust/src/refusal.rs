//! Why a call was refused.

#![forbid(unsafe_code)]

use crate::{MAX_EXECUTE_CYCLES, MAX_PROGRAM_WORDS, MAX_ROWS, MAX_TOTAL_CYCLES};
use core::error::Error;
use core::fmt;

/// A kind of refusals, in the order in which the library tests them: each one's
/// name, number and text.
macro_rules! refusals {
    (
        $(#[$kind_doc:meta])*
        $kind:ident: $($(#[$doc:meta])* $name:ident = $number:literal, $text:literal;)*
    ) => {
        $(#[$kind_doc])*
        #[derive(Clone, Copy, Debug, PartialEq, Eq, Hash)]
        #[non_exhaustive]
        pub enum $kind {
            $($(#[$doc])* $name = $number,)*
        }

        impl $kind {
            /// All of them, in the order in which they are tested.
            pub const ALL: &'static [Self] = &[$(Self::$name),*];

            /// The library's number for it, from 1 on.
            pub fn number(self) -> u64 {
                self as u64
            }
        }

        impl core::fmt::Display for $kind {
            fn fmt(&self, f: &mut core::fmt::Formatter) -> core::fmt::Result {
                match self {
                    $(Self::$name => write!(f, $text),)*
                }
            }
        }

        impl core::error::Error for $kind {}

        /// The refusal of that number, as the functions of
        /// [`words`](crate::words) answer it.
        impl TryFrom<u64> for $kind {
            type Error = $crate::NotARefusal;

            fn try_from(number: u64) -> Result<Self, $crate::NotARefusal> {
                let mut all = Self::ALL.iter().copied();
                let refusal = all.find(|refusal| refusal.number() == number);
                refusal.ok_or($crate::NotARefusal(number))
            }
        }
    };
}
pub(crate) use refusals;

refusals! {
    /// Why a call was refused, by the names of the C header. Nothing that was lent to
    /// it has changed then. If there are several reasons, it is the one of the lowest
    /// number.
    Refusal:
    /// The program has no words, or there are no rows.
    NoRows = 1, "there are no program words, or no rows";
    /// The program has over [`MAX_PROGRAM_WORDS`] words, or there are over
    /// [`MAX_ROWS`] rows.
    TooManyRows = 2, "there are over {MAX_PROGRAM_WORDS} program words, or over {MAX_ROWS} rows";
    /// The rows are not the expansion of a program of any length.
    NoExpansion = 3, "the rows are not the expansion of a program";
    /// The cursor's micro_pc or next_fetch is not below the row count.
    OutsideRows = 4, "micro_pc or next_fetch is not below the row count";
    /// The cursor's cycles and the length of a segment are over
    /// [`MAX_TOTAL_CYCLES`] together, or `max_cycles` is over
    /// [`MAX_EXECUTE_CYCLES`].
    TooManyCycles = 5,
        "cycles and length are over {MAX_TOTAL_CYCLES} together, \
         or max_cycles is over {MAX_EXECUTE_CYCLES}";
    /// The buffer of rows, of starts or of records is shorter than what could
    /// go into it.
    Short = 6, "a buffer is too short for what may go into it";
}

impl Refusal {
    pub(crate) const EXPAND: [Self; 3] = [Self::NoRows, Self::TooManyRows, Self::Short];
    pub(crate) const SEGMENT: [Self; 6] = [
        Self::NoRows,
        Self::TooManyRows,
        Self::NoExpansion,
        Self::OutsideRows,
        Self::TooManyCycles,
        Self::Short,
    ];
    pub(crate) const PADDING: [Self; 5] = [
        Self::NoRows,
        Self::TooManyRows,
        Self::NoExpansion,
        Self::OutsideRows,
        Self::Short,
    ];
    pub(crate) const EXECUTE: [Self; 5] = [
        Self::NoRows,
        Self::TooManyRows,
        Self::NoExpansion,
        Self::TooManyCycles,
        Self::Short,
    ];
}

/// A number that is no refusal's of that kind: 0, which is acceptance, or another
/// that none of them has.
///
/// ```
/// use magnetar_cpu::{DispatchRefusal, IndexRefusal, NotARefusal, Refusal, ReportRefusal};
///
/// assert_eq!(Refusal::try_from(6), Ok(Refusal::Short));
/// assert_eq!(Refusal::try_from(0), Err(NotARefusal(0)));
/// assert_eq!(IndexRefusal::try_from(6), Ok(IndexRefusal::Short));
/// assert_eq!(ReportRefusal::try_from(9), Ok(ReportRefusal::BadRuns));
/// assert_eq!(DispatchRefusal::try_from(11), Ok(DispatchRefusal::NoCaller));
/// assert_eq!(Refusal::try_from(7), Err(NotARefusal(7)));
/// ```
#[derive(Clone, Copy, Debug, PartialEq, Eq, Hash)]
pub struct NotARefusal(
    /// The number.
    pub u64,
);

impl fmt::Display for NotARefusal {
    fn fmt(&self, f: &mut fmt::Formatter) -> fmt::Result {
        write!(f, "{} is the number of no refusal", self.0)
    }
}

impl Error for NotARefusal {}

/// An answer as a result. It must be 0 or the number of one of the refusals.
pub(crate) fn result<R>(call: &str, answer: u64, refusals: &[R]) -> Result<(), R>
where
    R: Copy + PartialEq + TryFrom<u64>,
{
    if answer == 0 {
        return Ok(());
    }
    match R::try_from(answer) {
        Ok(refusal) if refusals.contains(&refusal) => Err(refusal),
        _ => panic!("{call} answered {answer}"),
    }
}

#[cfg(test)]
mod tests {
    use super::*;
    use std::string::ToString;

    #[test]
    fn numbers_and_refusals() {
        for (&refusal, number) in Refusal::ALL.iter().zip(1..) {
            assert_eq!(refusal.number(), number);
            assert_eq!(Refusal::try_from(number), Ok(refusal));
        }
        for number in [0, Refusal::ALL.len() as u64 + 1, u64::MAX] {
            assert_eq!(Refusal::try_from(number), Err(NotARefusal(number)));
        }
        assert_eq!(NotARefusal(0).to_string(), "0 is the number of no refusal");
    }

    #[test]
    fn answers_as_results() {
        assert_eq!(result("a", 0, &Refusal::PADDING), Ok(()));
        for &refusal in Refusal::ALL {
            assert_eq!(result("a", refusal.number(), Refusal::ALL), Err(refusal));
        }
    }

    #[test]
    #[should_panic(expected = "a answered 5")]
    fn an_answer_that_is_none_of_its_numbers() {
        let _ = result("a", 5, &Refusal::PADDING);
    }
}
