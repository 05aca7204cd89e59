//! Which rows are an expansion: every short list of a few words.

use differential::{check, stage_word, Judging, Lend, ADDI, SLL, STAGES};

const SLLI: u32 = 0x0020_9193;
const SLLW: u32 = 0x0020_91bb;
const SRA: u32 = 0x4020_d1b3;

/// How often the library said no and yes, always as the model does.
#[derive(Default)]
struct Tally([usize; 2]);

impl Tally {
    fn add(&mut self, rows: &[u64]) {
        match check(Judging::new(rows), Judging::library) {
            Ok((answer, _)) => self.0[answer as usize] += 1,
            Err(error) => panic!("{rows:x?}: {error}"),
        }
    }
}

/// Adds the list, and the list with every list of up to `more` words after it.
fn add_all(list: &mut Vec<u64>, words: &[u64], more: usize, tally: &mut Tally) {
    tally.add(list);
    if more > 0 {
        for &word in words {
            list.push(word);
            add_all(list, words, more - 1, tally);
            list.pop();
        }
    }
}

/// Up to three words after every beginning of a shift.
#[test]
fn every_short_list() {
    let mut words: Vec<u64> = (0..=STAGES).map(|stage| stage_word(SLL, stage)).collect();
    for stage in [0, 1, STAGES - 1] {
        words.extend([SRA, SLLI].map(|raw| stage_word(raw, stage)));
    }
    words.extend([SLLW, ADDI].map(u64::from));
    words.extend([u64::from(SLL) | 1 << 63, u64::from(ADDI) | 1 << 40]);
    let mut tally = Tally::default();
    for stages in 0..=STAGES {
        let mut list = words[..stages].to_vec();
        add_all(&mut list, &words, 3, &mut tally);
    }
    let Tally([no, yes]) = tally;
    assert!(no >= 90 && yes >= 90, "{no} no, {yes} yes");
}
