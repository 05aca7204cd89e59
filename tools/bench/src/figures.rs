//! The report over many runs, timed in the library, in a report written in Rust, and
//! beside a pass that only adds up both lists.

use crate::mix::timed;
use differential::Rng;
use magnetar_cpu::{report, ReportRefusal, MAX_COUNT, MAX_RUNS, REPORT_BYTES};
use std::hint::black_box;
use std::io::Write;
use std::time::Duration;

/// How many runs the lists have.
const RUNS: [usize; 3] = [1, 100, MAX_RUNS];
/// The most calls of a pass. They are timed together: one on few runs is too short for
/// the clock.
const MOST_CALLS: usize = 1000;
/// The passes of a round by each side, so that all but the first find the lists in the
/// cache.
const PASSES: usize = 8;
const SEED: u64 = 0x4649_4755;

type Work = fn(&[u64], &[u64], &mut [u8]) -> Result<usize, ReportRefusal>;

/// The report as one would write it in Rust. It answers what the library does.
fn in_rust(live: &[u64], records: &[u64], line: &mut [u8]) -> Result<usize, ReportRefusal> {
    if live.len() != records.len() || live.is_empty() || live.len() > MAX_RUNS {
        return Err(ReportRefusal::BadRuns);
    }
    let is_bad = |&count: &u64| count > MAX_COUNT;
    if live.iter().any(is_bad) || records.iter().any(is_bad) {
        return Err(ReportRefusal::BadCount);
    }
    let runs = live.len() as u64;
    let live_sum: u64 = live.iter().sum();
    let record_sum: u64 = records.iter().sum();
    let mean = (200 * live_sum + runs) / (2 * runs);
    let mut text = [0; REPORT_BYTES];
    let mut rest = text.as_mut_slice();
    writeln!(rest, "{runs},{live_sum},{record_sum},{mean}").expect("room for any line");
    let length = REPORT_BYTES - rest.len();
    let line = line.get_mut(..length).ok_or(ReportRefusal::Short)?;
    line.copy_from_slice(&text[..length]);
    Ok(length)
}

/// The sums of both lists, as an answer. No report can be had without them.
fn read(live: &[u64], records: &[u64], _: &mut [u8]) -> Result<usize, ReportRefusal> {
    let sums = live.iter().sum::<u64>() + records.iter().sum::<u64>();
    Ok(sums as usize)
}

/// Rust, the library, and reading.
const SIDES: [Work; 3] = [in_rust, report, read];

/// Lists, and the best times so far of a pass of calls on them, by each side.
pub struct Reported {
    live: Vec<u64>,
    records: Vec<u64>,
    line: [u8; REPORT_BYTES],
    best: [Duration; 3],
}

impl Reported {
    /// Lists of each number of runs.
    pub fn all() -> Result<Vec<Reported>, String> {
        let mut rng = Rng::new(SEED);
        let lists = RUNS.iter().map(|&runs| Reported::of_runs(runs, &mut rng));
        lists.collect()
    }

    /// Lists of any counts. An error if the library and the Rust report do not agree on
    /// them.
    fn of_runs(runs: usize, rng: &mut Rng) -> Result<Reported, String> {
        let mut count = || rng.doubleword() % (MAX_COUNT + 1);
        let live: Vec<u64> = (0..runs).map(|_| count()).collect();
        let records: Vec<u64> = (0..runs).map(|_| count()).collect();
        let (mut library, mut rust) = ([0; REPORT_BYTES], [0; REPORT_BYTES]);
        let answer = report(&live, &records, &mut library);
        if answer.is_err() || answer != in_rust(&live, &records, &mut rust) || library != rust {
            return Err(format!("{runs} runs: the library's report is wrong"));
        }
        Ok(Reported {
            live,
            records,
            line: library,
            best: [Duration::MAX; 3],
        })
    }

    /// Times each side in turn, several passes in a row.
    pub fn round(&mut self) {
        for (side, work) in SIDES.iter().enumerate() {
            for _ in 0..PASSES {
                let time = self.time(*work);
                self.best[side] = time.min(self.best[side]);
            }
        }
    }

    /// The time of a pass.
    fn time(&mut self, work: Work) -> Duration {
        let calls = self.calls();
        let work = black_box(work);
        let mut call = || {
            let (live, records) = (self.live.as_slice(), self.records.as_slice());
            let line = self.line.as_mut_slice();
            let _ = black_box(work(black_box(live), black_box(records), black_box(line)));
        };
        timed(|| (0..calls).for_each(|_| call())).0
    }

    /// How many calls are a pass.
    fn calls(&self) -> usize {
        (MAX_RUNS / self.runs()).min(MOST_CALLS)
    }

    pub fn runs(&self) -> usize {
        self.live.len()
    }

    /// The time of a call of the Rust report, of the library's, and of reading, in
    /// nanoseconds.
    pub fn nanoseconds(&self) -> [f64; 3] {
        let of_call = |time: Duration| time.as_secs_f64() * 1e9 / self.calls() as f64;
        self.best.map(of_call)
    }
}

#[cfg(test)]
mod tests {
    use super::*;

    const COUNTS: [u64; 5] = [0, 1, 199, MAX_COUNT, MAX_COUNT + 1];

    /// The library and the Rust report answer and leave the same, whatever room they have.
    fn agree(live: &[u64], records: &[u64]) {
        for bytes in 0..60 {
            let [library, rust] = [report as Work, in_rust].map(|work| {
                let mut line = vec![b'-'; bytes];
                (work(live, records, &mut line), line)
            });
            let (live, records) = (live.len(), records.len());
            assert_eq!(library, rust, "{live} and {records} runs, {bytes} bytes");
        }
    }

    #[test]
    fn the_rust_report_answers_what_the_library_does() {
        for (live, records) in COUNTS.iter().flat_map(|&a| COUNTS.map(|b| (a, b))) {
            agree(&[live], &[records]);
            agree(
                &[live, 1, 0, 0, 0, 0, 0, 0],
                &[7, 7, 7, 7, 7, 7, 7, records],
            );
            agree(&[live, live], &[records]);
            agree(&[], &[records]);
        }
        agree(&[], &[]);
    }

    #[test]
    fn the_most_runs() {
        for runs in [MAX_RUNS, MAX_RUNS + 1] {
            let counts = vec![MAX_COUNT; runs];
            agree(&counts, &counts);
        }
    }

    #[test]
    fn a_round_times_every_side() {
        let mut reported = Reported::of_runs(100, &mut Rng::new(1)).expect("answers that agree");
        reported.round();
        assert!(reported.best.iter().all(|&time| time < Duration::MAX));
    }
}
