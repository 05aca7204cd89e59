//! What has to be among the calls of the list of calls, and its size.

use super::told::{calls, count, Told, ToldCall, TOLD};
use super::{all, listing};
use crate::callline::CALLS;
use crate::calllist::CallKind::{Padding, Segment};
use crate::calllist::{
    Call, MAX_TOTAL_CYCLES, MOST_CYCLES, MOST_INPUT, MOST_ROOM, MOST_ROWS, MOST_WORDS, RECORD,
};
use crate::list::fed_lines;
use std::collections::HashSet;
use std::mem::discriminant;

#[test]
fn the_list_is_right_and_the_same_again() {
    let list = listing();
    assert_eq!(CALLS.parts(list.as_bytes()).len(), all().len());
    assert_eq!(CALLS.wrong_lines(list.as_bytes()), []);
    assert_eq!(list, listing());
}

#[test]
fn its_size() {
    let records: usize = calls().map(|call| call.records.len()).sum();
    assert!((250..=400).contains(&TOLD.len()), "{}", TOLD.len());
    assert!((6000..=8000).contains(&records), "{records}");
    assert!(listing().len() <= 700_000);
}

#[test]
fn lines_are_of_every_kind() {
    let list = listing();
    let letters: HashSet<u8> = fed_lines(list.as_bytes()).map(|line| line[0]).collect();
    assert_eq!(letters, b"lwisprcgm".iter().copied().collect());
    let is_written = |byte| matches!(byte, b'0'..=b'9' | b'a'..=b'z' | b' ' | b'\n');
    assert!(list.bytes().all(is_written));
    for line in list.lines() {
        for number in line.split(' ').skip(1) {
            assert!(number == "0" || !number.starts_with('0'), "{line}");
        }
    }
}

#[test]
fn bounds_are_kept_and_reached() {
    let most = |count: fn(&Told) -> usize| TOLD.iter().map(count).max();
    assert_eq!(most(|list| list.words.len()), Some(MOST_WORDS));
    assert_eq!(most(|list| list.rows.len()), Some(MOST_ROWS));
    assert_eq!(most(|list| list.inputs), Some(MOST_INPUT));
    for kind in [Segment, Padding] {
        let accepted = calls().filter(|call| call.code == 0 && call.call.kind == kind);
        let longest = accepted.map(|call| call.call.length).max();
        assert_eq!(longest, Some(MOST_CYCLES));
    }
    for code in [0, 6] {
        let rooms = calls().filter(|call| call.code == code);
        assert_eq!(rooms.map(|call| call.call.room).max(), Some(MOST_ROOM));
    }
    let least = TOLD.iter().map(|list| list.words.len()).min();
    assert_eq!(least, Some(1));
}

#[test]
fn segments_go_on_into_padding() {
    let halting = |call: &ToldCall| !call.is_halted() && call.after[2] == 1;
    let live = |call: &ToldCall| call.after[1] - call.before[1];
    let goes_on = |call: &ToldCall| halting(call) && live(call) < call.call.length;
    assert!(count(Segment, goes_on) >= 20);
    assert!(
        count(Segment, |call| halting(call)
            && live(call) == call.call.length)
            >= 20
    );
    assert!(count(Segment, |call| call.is_halted() && call.records.len() > 1) >= 5);
    assert!(count(Segment, |call| halting(call) && call.after[3] != 0) >= 10);
}

#[test]
fn padding_is_of_machines_in_every_state() {
    let pads = |call: &ToldCall| !call.records.is_empty();
    let fresh = |call: &ToldCall| pads(call) && !call.is_halted() && call.cycles() == 0;
    let live = |call: &ToldCall| pads(call) && !call.is_halted() && call.cycles() > 0;
    let halted = |call: &ToldCall| pads(call) && call.is_halted();
    assert!(count(Padding, fresh) >= 10);
    assert!(count(Padding, live) >= 25);
    assert!(count(Padding, halted) >= 10);
    assert!(count(Padding, |call| halted(call) && call.before[3] != 0) >= 5);
}

#[test]
fn live_machines_go_on_after_padding() {
    let goes_on = |pair: &&[ToldCall]| {
        let [padding, segment] = [&pair[0], &pair[1]];
        let live = padding.call.kind == Padding && !padding.is_halted() && padding.cycles() > 0;
        let pads = live && !padding.records.is_empty();
        pads && segment.call.kind == Segment && segment.after[1] > segment.before[1]
    };
    let pairs = || {
        TOLD.iter()
            .flat_map(|list| list.calls.windows(2))
            .filter(goes_on)
    };
    assert!(pairs().count() >= 20);
    // Padding has changed a register that a program can read.
    let readable = |call: &ToldCall| call.changed_registers.iter().any(|change| change[0] < 32);
    assert!(pairs().filter(|pair| readable(&pair[0])).count() >= 6);
}

#[test]
fn padding_is_at_rows_of_every_kind() {
    let mut found = HashSet::new();
    for list in TOLD.iter() {
        for call in list.calls.iter().filter(|call| call.call.kind == Padding) {
            for record in &call.records {
                let kind = list.rows[record[0] as usize].kind;
                let state = (call.is_halted(), call.cycles() > 0);
                found.insert((format!("{kind:?}"), state));
            }
        }
    }
    let kinds = ["Alu", "Load", "Store", "Branch", "Upper", "Jump"];
    for kind in kinds {
        for begun in [false, true] {
            assert!(
                found.contains(&(kind.to_string(), (false, begun))),
                "{kind}"
            );
        }
    }
    for stage in 0..6 {
        let kind = format!("ShiftStage {{ stage: {stage} }}");
        assert!(found.contains(&(kind, (false, true))), "{stage}");
    }
    assert!(found.contains(&("System".to_string(), (true, true))));
}

#[test]
fn refusals_are_of_every_kind() {
    assert!(count(Segment, |call| call.code == 5) >= 10);
    assert!(count(Segment, |call| call.code == 6) >= 20);
    assert!(count(Padding, |call| call.code == 6) >= 20);
    assert_eq!(count(Padding, |call| call.code == 5), 0);
    for call in calls().filter(|call| call.code != 0) {
        assert!([5, 6].contains(&call.code));
        assert_eq!(call.before, call.after);
        assert!(call.records.is_empty() && call.changed_registers.is_empty());
    }
    // The machine goes on after a refusal.
    let goes_on = |pair: &&[ToldCall]| pair[0].code != 0 && pair[1].after[1] > pair[1].before[1];
    let pairs = TOLD.iter().flat_map(|list| list.calls.windows(2));
    assert!(pairs.filter(goes_on).count() >= 15);
}

#[test]
fn buffers_are_of_every_size() {
    for kind in [Segment, Padding] {
        let found = |length: fn(u64) -> bool, room: fn(u64, u64) -> bool, code| {
            count(kind, |told| {
                let Call {
                    length: n, room: r, ..
                } = told.call;
                length(n) && room(n.saturating_mul(RECORD), r) && told.code == code
            })
        };
        assert!(found(|n| n == 0, |_, room| room == 0, 0) >= 3);
        assert!(found(|n| n == 0, |_, room| room > 0, 0) >= 3);
        assert!(found(|n| n > 0, |full, room| room == full, 0) >= 10);
        assert!(found(|n| n > 0, |full, room| room == full - 1, 6) >= 3);
        assert!(found(|n| n > 0, |full, room| room.checked_sub(1) == Some(full), 0) >= 3);
        assert!(found(|n| n > 0, |_, room| room == 0, 6) >= 3);
    }
}

#[test]
fn lengths_are_huge() {
    for kind in [Segment, Padding] {
        let codes = |length: u64| -> HashSet<u64> {
            let found = calls().filter(|told| told.call.kind == kind && told.call.length == length);
            found.map(|told| told.code).collect()
        };
        let over = if kind == Segment { 5 } else { 6 };
        for length in [MAX_TOTAL_CYCLES + 1, u64::MAX, u64::MAX - 1] {
            assert_eq!(codes(length), HashSet::from([over]), "{length:x}");
        }
        assert!(codes(MAX_TOTAL_CYCLES).contains(&6));
        // A product that wraps would fit.
        let fits = |told: &ToldCall| {
            let Call { length, room, .. } = told.call;
            told.code == 6 && length.wrapping_mul(RECORD) <= room
        };
        assert!(count(kind, fits) >= 3);
    }
    // A sum that wraps would fit.
    let fits =
        |told: &ToldCall| told.code == 5 && told.call.length.wrapping_add(told.cycles()) < 16;
    assert!(count(Segment, fits) >= 2);
    // The sum at its bound, of live and of halted machines that have run.
    for halted in [false, true] {
        for (over, code) in [(0, 6), (1, 5)] {
            let bound = |told: &ToldCall| {
                let asked = told.cycles() > 0 && told.is_halted() == halted;
                asked
                    && told.code == code
                    && told.call.length == MAX_TOTAL_CYCLES + over - told.cycles()
            };
            assert!(count(Segment, bound) >= 1, "{halted} {over}");
        }
    }
}

#[test]
fn inputs_are_longer_than_ram() {
    let inputs: HashSet<usize> = TOLD.iter().map(|list| list.inputs).collect();
    for count in [0, 1, 256, 257] {
        assert!(inputs.contains(&count), "{count}");
    }
}

#[test]
fn single_words_are_of_every_kind() {
    let single = TOLD.iter().filter(|list| list.words.len() == 1);
    let kinds: HashSet<_> = single
        .map(|list| discriminant(&list.rows[0].kind))
        .collect();
    assert_eq!(kinds.len(), 8);
}

#[test]
fn lists_are_of_several_calls() {
    let lengths: HashSet<usize> = TOLD.iter().map(|list| list.calls.len()).collect();
    assert!(
        (0..=6).all(|length| lengths.contains(&length)),
        "{lengths:?}"
    );
}
