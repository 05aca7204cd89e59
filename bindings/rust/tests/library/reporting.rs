//! The run report. What the library answers at its limits and on random lists is tested by
//! tools/c-boundary and tools/differential.

use crate::guarded::Guarded;
use magnetar_cpu::{report, words, Report, ReportRefusal};
use magnetar_cpu::{MAX_COUNT, MAX_RUNS, REPORT_BYTES};

/// All that is lent to a report.
#[derive(Clone, Debug, PartialEq)]
struct Lent {
    live: Guarded<u64>,
    records: Guarded<u64>,
    line: Guarded<u8>,
    length: Guarded<u64>,
}

impl Lent {
    fn new(live: &[u64], records: &[u64], room: usize) -> Self {
        Lent {
            live: Guarded::new(live),
            records: Guarded::new(records),
            line: Guarded::buffer(room),
            length: Guarded::buffer(1),
        }
    }

    fn report(&mut self) -> u64 {
        words::report(
            self.live.words(),
            self.records.words(),
            self.line.words_mut(),
            &mut self.length.words_mut()[0],
        )
    }

    /// The answer of a call that must leave all as it was.
    fn refusal(mut self) -> u64 {
        let before = self.clone();
        let answer = self.report();
        assert!(self == before, "answer {answer}");
        answer
    }
}

/// Of these lists it is this line: into buffers that are exactly full or longer, and in
/// memory of its own. Into a shorter buffer nothing is written.
#[track_caller]
fn assert_line(live: &[u64], records: &[u64], line: &str) {
    for room in [line.len(), line.len() + 1, 2 * REPORT_BYTES] {
        let mut lent = Lent::new(live, records, room);
        let wanted = Lent {
            line: lent.line.clone().after(line.as_bytes()),
            length: lent.length.clone().after(&[line.len() as u64]),
            ..lent.clone()
        };
        assert_eq!(lent.report(), 0);
        assert_eq!(lent, wanted);
    }
    for room in [0, line.len() - 1] {
        assert_eq!(Lent::new(live, records, room).refusal(), 6);
    }
    assert_eq!(Report::of(live, records).expect("accepted").as_str(), line);
}

#[test]
fn lines() {
    assert_line(&[1, 2, 2], &[2, 2, 2], "3,5,6,167\n");
    assert_line(&[0], &[0], "1,0,0,0\n");
    assert_line(&[0, 0, 1, 0, 0, 0, 0, 0], &[1; 8], "8,1,8,13\n");
    let most = vec![MAX_COUNT; MAX_RUNS];
    let longest = "65536,281474976710656,281474976710656,429496729600\n";
    assert_eq!(longest.len(), REPORT_BYTES);
    assert_line(&most, &most, longest);
}

/// Each leaves the buffer, and says what was wrong.
#[test]
fn refusals() {
    let refusal = |live: &[u64], records: &[u64], room| {
        let number = Lent::new(live, records, room).refusal();
        let mut line = [7; REPORT_BYTES];
        let refusal = report(live, records, &mut line[..room]).expect_err("a reason to refuse");
        assert_eq!(refusal.number(), number);
        assert_eq!(line, [7; REPORT_BYTES]);
        refusal
    };
    let (good, bad) = ([1, 1], [1, MAX_COUNT + 1]);
    let refusals = [
        refusal(&bad, &good[1..], 0),
        refusal(&bad, &good, 0),
        refusal(&good, &good, 0),
    ];
    assert_eq!(refusals, ReportRefusal::ALL);
    assert_eq!(refusals.map(ReportRefusal::number), [9, 10, 6]);
    let texts = [
        "the lists are of unequal length, or have no runs or over 65536",
        "a count in either list is over 4294967296",
        "the buffer is shorter than the line",
    ];
    assert_eq!(refusals.map(|refusal| refusal.to_string()), texts);
}

/// Slices of Rust that hold nothing point nowhere.
#[test]
fn empty_slices() {
    let bad_runs = Err(ReportRefusal::BadRuns);
    assert_eq!(report(&[], &[], &mut []), bad_runs);
    assert_eq!(report(&[], &[1], &mut [7; 8]), bad_runs);
    assert_eq!(report(&[1], &[], &mut [7; 8]), bad_runs);
    assert_eq!(report(&[1], &[1], &mut []), Err(ReportRefusal::Short));
    assert_eq!(Report::of(&[], &[]), Err(ReportRefusal::BadRuns));
}

/// One list for both, which is only read.
#[test]
fn a_list_lent_twice() {
    let counts = [3, 4];
    let mut line = *b"0123456789";
    assert_eq!(report(&counts, &counts, &mut line), Ok(10));
    assert_eq!(line, *b"2,7,7,350\n");
}

#[test]
fn reports_as_text() {
    let report = Report::of(&[1, 2, 2], &[2, 2, 2]).expect("accepted");
    assert_eq!(report.to_string(), "3,5,6,167\n");
    assert_eq!(report.as_ref(), report.as_str());
    assert_eq!(format!("{report:?}"), r#"Report("3,5,6,167\n")"#);
    assert_eq!(Report::of(&[2, 1, 2], &[2, 2, 2]), Ok(report));
    assert_ne!(Report::of(&[1, 2, 2], &[2, 2, 1]), Ok(report));
}
