//! The reference beside the unedited source: but for what the edits of
//! `tools/source/edits` mean to change, all answers are as before.

use crate::calllist::CallList;
use crate::{interp, programs, words};

/// Whether an edit means to change this answer: slt.edit those of a program that
/// has an Alu row with funct3 2.
fn may_change(asked: Asked, words: &[u32]) -> bool {
    let compares =
        |word: &u32| matches!(word & 0x7f, 0x13 | 0x1b | 0x33 | 0x3b) && word >> 12 & 7 == 2;
    matches!(asked, Asked::Run) && words.iter().any(compares)
}

#[derive(Clone, Copy, Debug)]
enum Asked {
    Decode,
    Expand,
    Run,
}

/// A word or the words of a program, and the answers as text.
struct Case {
    asked: Asked,
    words: Vec<u32>,
    reference: String,
    unedited: String,
}

impl Case {
    fn is_changed(&self) -> bool {
        self.reference != self.unedited
    }

    fn name(&self) -> String {
        let words = self.words.iter().map(|word| format!(" {word:08x}"));
        format!("{:?}{}", self.asked, words.collect::<String>())
    }
}

/// The answers of one of the two crates, whose types differ. Of a machine the
/// fields are named, so that an edit may add one.
macro_rules! answers_of {
    ($side:ident, $source:ident) => {
        mod $side {
            use crate::calllist::{CallKind, CallList};
            use $source::decode::decode;
            use $source::expand::expand_program;
            use $source::interp::{execute, pad_records, CycleRecord, ExecState, StreamCursor};

            pub fn decoded(word: u32) -> String {
                format!("{:?}", decode(word))
            }

            pub fn expanded(program: &[u32]) -> String {
                format!("{:?}", expand_program(program))
            }

            /// The accepted calls of a list, and an execution of its program.
            pub fn run(list: &CallList) -> String {
                let program = expand_program(&list.program);
                let mut cursor = StreamCursor::start(&list.input);
                let mut text = String::new();
                for call in &list.calls {
                    if call.code(cursor.st.cycles as u64) != 0 {
                        continue;
                    }
                    let length = call.length as usize;
                    let records = match call.kind {
                        CallKind::Segment => cursor.run_segment(&program, length),
                        CallKind::Padding => {
                            let mut records = vec![CycleRecord::default()];
                            records[0].next_pc = cursor.next_fetch;
                            pad_records(&mut records, &mut cursor.st, &program, 1 + length);
                            records
                        }
                    };
                    text += &format!("{records:?} {} {}", state(&cursor.st), cursor.next_fetch);
                }
                let trace = execute(&list.program, &list.input, 64);
                text + &format!("{:?} {}", trace.records, state(&trace.final_state))
            }

            /// The record of a word's first cycle.
            pub fn first_record(word: u32) -> String {
                format!("{:?}", execute(&[word], &[], 1).records[0])
            }

            fn state(st: &ExecState) -> String {
                let numbers = (st.micro_pc, st.cycles, st.halted, st.output);
                format!("{:?} {:?} {numbers:?}", st.regs, st.ram)
            }
        }
    };
}

answers_of!(reference, magnetar_reference);
answers_of!(unedited, magnetar_unedited);

/// The words, the programs and the lists of calls of the stored lists.
fn cases() -> Vec<Case> {
    let decode = |word: u32| Case {
        asked: Asked::Decode,
        words: vec![word],
        reference: reference::decoded(word),
        unedited: unedited::decoded(word),
    };
    let expand = |words: Vec<u32>| Case {
        asked: Asked::Expand,
        reference: reference::expanded(&words),
        unedited: unedited::expanded(&words),
        words,
    };
    let run = |list: CallList| Case {
        asked: Asked::Run,
        reference: reference::run(&list),
        unedited: unedited::run(&list),
        words: list.program,
    };
    let words = words::all().into_iter().map(decode);
    let programs = programs::all().into_iter().map(expand);
    let lists = interp::all().into_iter().map(run);
    words.chain(programs).chain(lists).collect()
}

/// What is not as before and should be; or that nothing has changed of what an
/// edit means to change, because it is not applied or no case shows it.
fn fault(cases: &[Case], may_change: fn(Asked, &[u32]) -> bool) -> Option<String> {
    let (named, others): (Vec<&Case>, Vec<&Case>) = cases
        .iter()
        .partition(|case| may_change(case.asked, &case.words));
    let changed = others.iter().filter(|case| case.is_changed());
    let changed: Vec<String> = changed.map(|case| case.name()).collect();
    if !changed.is_empty() {
        let (count, first) = (changed.len(), &changed[..changed.len().min(3)]);
        return Some(format!("{count} answers are not as before: {first:?}"));
    }
    if !named.is_empty() && !named.iter().any(|case| case.is_changed()) {
        return Some("no answer that may change has changed".to_string());
    }
    None
}

#[test]
fn all_else_is_as_before() {
    let cases = cases();
    assert!(cases.iter().all(|case| !case.unedited.is_empty()));
    assert_eq!(fault(&cases, may_change), None);
}

/// The words that docs/DIFFERENCES.md gives for signed set-less-than: what differs in
/// their records is the value and two flags. No word below the first shows it.
#[test]
fn the_smallest_words_of_slt() {
    let slt = |word, value: u64| {
        let changes = [
            ("rd_val: 0", format!("rd_val: {value}")),
            ("alu_out: 0", format!("alu_out: {value}")),
            ("is_arith: false", "is_arith: true".to_string()),
            ("is_sub_op: false", "is_sub_op: true".to_string()),
        ];
        let record = unedited::first_record(word);
        let changed = changes.iter();
        changed.fold(record, |record, (old, new)| record.replace(old, new))
    };
    assert_eq!(reference::first_record(0x0000_2013), slt(0x0000_2013, 0));
    assert_eq!(reference::first_record(0x0010_2093), slt(0x0010_2093, 1));
    for word in 0..0x0000_2013 {
        let before = unedited::first_record(word);
        assert_eq!(reference::first_record(word), before, "{word:08x}");
    }
}

#[test]
fn a_change_is_noticed() {
    let case = |word, reference: &str| Case {
        asked: Asked::Run,
        words: vec![word, 0x73],
        reference: reference.to_string(),
        unedited: "before".to_string(),
    };
    let (same, changed) = (case(1, "before"), case(2, "after"));
    let first_is_2: fn(Asked, &[u32]) -> bool = |_, words| words[0] == 2;
    let cases = [same, changed];
    let text = "1 answers are not as before: [\"Run 00000002 00000073\"]";
    assert_eq!(fault(&cases, |_, _| false), Some(text.to_string()));
    assert_eq!(fault(&cases, first_is_2), None);
    let text = "no answer that may change has changed";
    assert_eq!(
        fault(&[case(2, "before")], first_is_2),
        Some(text.to_string())
    );
}
