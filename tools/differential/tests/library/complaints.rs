//! A comparison says where a call is wrong: of every part that is lent, in the
//! words and in the guards.

use differential::{check, Comparing, Dispatching, Executing, Expanding, Indexing, Judging};
use differential::{Call, Expansion, Lend, Lent, Reporting, Rng, Rom, Running, Starting, Step};
use differential::{ADDI, ECALL, GUARDS, SLL};
use magnetar_cpu::Cursor;

const BLANK: [u64; Cursor::WORDS] = [0; Cursor::WORDS];

/// The parts of a lending that are words of 64 bits.
type Part<L> = (&'static str, fn(&mut L) -> &mut Lent<u64>);

/// The words at both ends of each part, and the guards next to them, are named
/// if they are changed after a call of the library.
fn check_parts<L: Lend>(lending: &L, parts: &[Part<L>]) {
    assert!(check(lending.clone(), L::library).is_ok());
    for (name, part) in parts {
        let length = part(&mut lending.clone()).words().len();
        for at in [GUARDS - 1, GUARDS, GUARDS + length - 1, GUARDS + length] {
            let checked = check(lending.clone(), |lending| {
                let answer = lending.library();
                part(lending).all[at] ^= 1 << 63;
                answer
            });
            let place = at as i64 - GUARDS as i64;
            let wanted = format!("{name}, place {place} of {length}: found ");
            let complaint = checked.err().expect("a complaint");
            assert!(complaint.starts_with(&wanted), "{complaint}, not {wanted}");
        }
    }
    let checked = check(lending.clone(), |lending| lending.library() + 7);
    let complaint = checked.err().expect("a complaint");
    assert!(complaint.starts_with("answer: found "), "{complaint}");
}

/// Buffers with more places than are needed, or with none.
#[test]
fn of_an_expansion() {
    let program = [ADDI, SLL, ADDI];
    let expansion = Expansion::of(&program);
    let parts: [Part<Expanding>; 3] = [
        ("rows", |lent| &mut lent.rows),
        ("starts", |lent| &mut lent.starts),
        ("count", |lent| &mut lent.count),
    ];
    for places in [10, 1] {
        let rng = &mut Rng::new(2);
        let expanding = Expanding::new(&program, &expansion, places, places, rng);
        check_parts(&expanding, &parts);
        let checked = check(expanding, |expanding| {
            let answer = expanding.library();
            expanding.program.all[GUARDS + 3] ^= 1;
            answer
        });
        let complaint = checked.err().expect("a complaint");
        assert!(
            complaint.starts_with("program, place 3 of 3: "),
            "{complaint}"
        );
    }
}

#[test]
fn of_a_test_of_rows() {
    let judging = Judging::new(&Rom::of(&[ADDI, SLL]).rows);
    check_parts(&judging, &[("rows", |lent| &mut lent.rows)]);
}

#[test]
fn of_a_fresh_cursor() {
    let starting = Starting::new(&[1, 2, 3], &mut Rng::new(2));
    let parts: [Part<Starting>; 2] = [
        ("input", |lent| &mut lent.input),
        ("cursor", |lent| &mut lent.cursor),
    ];
    check_parts(&starting, &parts);
}

#[test]
fn of_a_segment_or_padding_call() {
    let rom = Rom::of(&[ADDI, ECALL]);
    let parts: [Part<Running>; 3] = [
        ("rows", |lent| &mut lent.rows),
        ("cursor", |lent| &mut lent.cursor),
        ("records", |lent| &mut lent.records),
    ];
    for call in [Call::Segment, Call::Padding] {
        for room in [40, 33] {
            let running = Running::new(call, &rom, &BLANK, 2, room, &mut Rng::new(2));
            check_parts(&running, &parts);
        }
    }
}

#[test]
fn of_an_execution() {
    let rom = Rom::of(&[ADDI, ECALL]);
    let parts: [Part<Executing>; 6] = [
        ("rows", |lent| &mut lent.rows),
        ("input", |lent| &mut lent.input),
        ("records", |lent| &mut lent.records),
        ("cursor", |lent| &mut lent.cursor),
        ("live", |lent| &mut lent.live),
        ("record_count", |lent| &mut lent.record_count),
    ];
    for room in [40, 33] {
        let executing = Executing::new(&rom, &[1, 2], 2, room, &mut Rng::new(2));
        check_parts(&executing, &parts);
    }
}

#[test]
fn of_a_comparison() {
    let parts: [Part<Comparing>; 2] = [
        ("first cursor", |lent| &mut lent.a),
        ("second cursor", |lent| &mut lent.b),
    ];
    check_parts(&Comparing::new(&BLANK, &BLANK, &mut Rng::new(2)), &parts);
}

/// With places past the index, and with one too few.
#[test]
fn of_an_index() {
    let parts: [Part<Indexing>; 2] = [
        ("log", |lent| &mut lent.log),
        ("index", |lent| &mut lent.index),
    ];
    for earlier in [None, Some(7)] {
        for index in [&[3; 330][..], &[3; 319]] {
            let indexing = Indexing::new(earlier, &[1; 34], index, &mut Rng::new(2));
            check_parts(&indexing, &parts);
        }
    }
}

/// With bytes past the line, and with none.
#[test]
fn of_a_report() {
    let parts: [Part<Reporting>; 3] = [
        ("live", |lent| &mut lent.live),
        ("records", |lent| &mut lent.records),
        ("length", |lent| &mut lent.length),
    ];
    for bytes in [12, 0] {
        let reporting = Reporting::new(&[1, 2, 2], &[2, 2, 2], bytes, &mut Rng::new(2));
        check_parts(&reporting, &parts);
        let checked = check(reporting, |reporting| {
            let answer = reporting.library();
            reporting.line.all[GUARDS + bytes] ^= 1;
            answer
        });
        let wanted = format!("line, place {bytes} of {bytes}: ");
        let complaint = checked.err().expect("a complaint");
        assert!(complaint.starts_with(&wanted), "{complaint}");
    }
}

/// With callers who want some, and at a position that there is not.
#[test]
fn of_a_dispatcher() {
    let parts: [Part<Dispatching>; 3] = [
        ("dispatcher", |lent| &mut lent.dispatcher),
        ("caller", |lent| &mut lent.caller),
        ("slice", |lent| &mut lent.slice),
    ];
    let add = Step::Add {
        caller: 3,
        cycles: 5,
    };
    for step in [Step::Start { budget: 7 }, add, Step::Turn] {
        for word in [9, 16] {
            let dispatching = Dispatching::new(step, &[word; 18], &mut Rng::new(2));
            check_parts(&dispatching, &parts);
        }
    }
}
