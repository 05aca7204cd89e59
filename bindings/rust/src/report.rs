//! The run report: a line of figures over many runs.

#![forbid(unsafe_code)]

use crate::refusal::{refusals, result};
use crate::words;
use core::fmt;

/// The most runs of a report.
pub const MAX_RUNS: usize = 1 << 16;
/// The largest count in the lists of a report.
pub const MAX_COUNT: u64 = 1 << 32;
/// The bytes of the longest line, with its line feed.
pub const REPORT_BYTES: usize = 51;

refusals! {
    /// Why a report was refused, by the names of the C header. Nothing that was lent to
    /// the call has changed then. If there are several reasons, it is the first in the
    /// order that they have here, which is not that of their numbers.
    ReportRefusal:
    /// The lists are of unequal length, or have no runs or over [`MAX_RUNS`].
    BadRuns = 9, "the lists are of unequal length, or have no runs or over {MAX_RUNS}";
    /// A count in either list is over [`MAX_COUNT`].
    BadCount = 10, "a count in either list is over {MAX_COUNT}";
    /// The buffer is shorter than the line.
    Short = 6, "the buffer is shorter than the line";
}

/// Writes the line of a [`Report`] to the first bytes of `line`, and gives its length in
/// bytes; the bytes after it are left alone. [`REPORT_BYTES`] bytes are always enough.
///
/// # Errors
///
/// The buffer is left as it was. In this order:
/// - [`ReportRefusal::BadRuns`], 9: `live` and `records` are of unequal length, or have
///   no runs or over [`MAX_RUNS`].
/// - [`ReportRefusal::BadCount`], 10: a count in either list is over [`MAX_COUNT`].
/// - [`ReportRefusal::Short`], 6: `line` has fewer bytes than this line.
///
/// # Panics
///
/// If the library's answer is none of its numbers.
pub fn report(live: &[u64], records: &[u64], line: &mut [u8]) -> Result<usize, ReportRefusal> {
    let mut length = 0;
    let answer = words::report(live, records, line, &mut length);
    result("magnetar_report", answer, ReportRefusal::ALL)?;
    Ok(usize::try_from(length).expect("a count of bytes in memory"))
}

/// A line of four figures over many runs: how many runs, the sum of their live counts,
/// the sum of their record counts, and the mean live count in hundredths. They are
/// decimal whole numbers without leading zeros, parted by commas, and a line feed ends
/// the line.
///
/// The mean is 100 times the sum of the live counts, divided by the runs, to the nearest
/// whole number, a half going up: 167 stands for 1.67, and one live cycle in eight runs,
/// 12.5 hundredths, gives 13. The other figures are exact.
///
/// ```
/// use magnetar_cpu::{execute, Report, ReportRefusal, RECORD_WORDS};
///
/// let rows = [0x0050_0513, 0x0000_0073]; // addi x10, x0, 5; ecall
/// let (mut live, mut records) = (Vec::new(), Vec::new());
/// for max_cycles in [1, 2, 3] {
///     let mut buffer = [0; 4 * RECORD_WORDS];
///     let execution = execute(&rows, &[], max_cycles, &mut buffer).expect("accepted");
///     live.push(execution.live_count);
///     records.push(execution.record_count as u64);
/// }
/// let report = Report::of(&live, &records)?;
/// assert_eq!(report.as_str(), "3,5,5,167\n");
/// print!("{report}"); // it has its line feed
/// # Ok::<(), ReportRefusal>(())
/// ```
#[derive(Clone, Copy, PartialEq, Eq, Hash)]
pub struct Report {
    // 0 past the line.
    bytes: [u8; REPORT_BYTES],
    length: usize,
}

impl Report {
    /// The report of the runs that have these live counts and, in the same order, these
    /// record counts. That runs had them is not tested.
    ///
    /// ```
    /// use magnetar_cpu::{Report, ReportRefusal};
    ///
    /// let report = Report::of(&[0, 0, 1, 0, 0, 0, 0, 0], &[1; 8])?;
    /// assert_eq!(report.as_str(), "8,1,8,13\n");
    /// assert_eq!(Report::of(&[1], &[]), Err(ReportRefusal::BadRuns));
    /// # Ok::<(), ReportRefusal>(())
    /// ```
    ///
    /// # Errors
    ///
    /// As for [`report`], but that [`ReportRefusal::Short`] is none of them.
    ///
    /// # Panics
    ///
    /// As for [`report`].
    pub fn of(live: &[u64], records: &[u64]) -> Result<Self, ReportRefusal> {
        let mut bytes = [0; REPORT_BYTES];
        let length = report(live, records, &mut bytes)?;
        Ok(Report { bytes, length })
    }

    /// The line, with its line feed.
    pub fn as_str(&self) -> &str {
        let line = &self.bytes[..self.length];
        core::str::from_utf8(line).expect("digits, commas and a line feed")
    }
}

impl AsRef<str> for Report {
    fn as_ref(&self) -> &str {
        self.as_str()
    }
}

/// The line, with its line feed.
impl fmt::Display for Report {
    fn fmt(&self, f: &mut fmt::Formatter) -> fmt::Result {
        f.write_str(self.as_str())
    }
}

impl fmt::Debug for Report {
    fn fmt(&self, f: &mut fmt::Formatter) -> fmt::Result {
        f.debug_tuple("Report").field(&self.as_str()).finish()
    }
}
