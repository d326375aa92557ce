//! The run of docs/SPECIFICATION.md, 7 and 8, and its boundary runs, in the library.
//! Symbol 0 is `o` with one child, symbol 1 is `p` without.

use oracle::limits::ROW_WORDS;
use oracle::{accept, answer, automaton, emit, load, look, offer, start};
use oracle::{Emitted, Judged, Lists, Seen};

const O: u8 = 0;
const P: u8 = 1;

/// A run over so many rows, started.
fn fresh(rows: usize) -> (Vec<u32>, Lists) {
    let mut words = vec![77; rows * ROW_WORDS];
    let mut lists = Lists::zeroed();
    lists.t[9] = 9;
    let seen = start(&mut words, &mut lists, &[1, 0]);
    assert_eq!(seen, proposing(0, 0, 1));
    (words, lists)
}

fn proposing(states: u16, rules: u16, contexts: u16) -> Seen {
    Seen {
        number: 0,
        phase: 0,
        row: 0,
        states,
        rules,
        contexts,
    }
}

fn asking(row: u16, states: u16, rules: u16, contexts: u16) -> Seen {
    Seen {
        phase: 1,
        row,
        ..proposing(states, rules, contexts)
    }
}

fn refused(number: u8) -> Seen {
    Seen {
        number,
        ..Seen::default()
    }
}

/// The run up to the proposal of one state.
fn after_line_3(rows: usize) -> (Vec<u32>, Lists) {
    let (mut words, mut lists) = fresh(rows);
    let seen = offer(&mut words, &mut lists, &[P, O], 1);
    assert_eq!(seen, asking(1, 0, 1, 2));
    assert_eq!(answer(&mut words, &mut lists, 0), proposing(1, 1, 2));
    (words, lists)
}

#[test]
fn line_by_line() {
    for rows in [5, 6, 100, 16_384] {
        let (mut words, mut lists) = after_line_3(rows);
        let seen = offer(&mut words, &mut lists, &[P, O], 1);
        assert_eq!(seen, asking(4, 1, 2, 2));
        assert_eq!(answer(&mut words, &mut lists, 0), proposing(2, 2, 2));
        let seen = accept(&mut words, &mut lists);
        assert_eq!(
            (seen.phase, seen.states, seen.rules, seen.contexts),
            (2, 2, 2, 2)
        );
        assert_eq!(lists.used, 5);
        let expected = [
            [255, 0, 0, 0, 0, 0],
            [1, 1, 0, 0, 0, 0],
            [0, 2, 1, 0, 0, 0],
            [0, 0, 0, 0, 0, 0],
            [0, 1, 2, 0, 0, 0],
        ];
        assert_eq!(words[..30], expected.concat());
        assert!(
            words[30..].iter().all(|&word| word == 77),
            "rows past the used ones"
        );
    }
}

#[test]
fn lists_of_the_run() {
    let (words, lists) = after_line_3(5);
    let mut expected = Lists::zeroed();
    expected.letters = 2;
    expected.counts[0] = 1;
    expected.used = 4;
    expected.states = 1;
    expected.s[0] = 1;
    expected.rules = 1;
    expected.t[0] = 1;
    expected.contexts = 2;
    expected.c[1] = 3;
    assert_eq!(lists, expected);
    assert_eq!(look(&words, &lists), proposing(1, 1, 2));
}

#[test]
fn four_rows_do_not_suffice() {
    let (mut words, mut lists) = after_line_3(4);
    let before = (words.clone(), lists.clone());
    assert_eq!(offer(&mut words, &mut lists, &[P, O], 1), refused(34));
    assert_eq!((words, lists), before);
}

#[test]
fn one_row_starts() {
    let (mut words, mut lists) = fresh(1);
    assert_eq!(offer(&mut words, &mut lists, &[P, O], 1), refused(34));
    assert_eq!(look(&words, &lists), proposing(0, 0, 1));
}

#[test]
fn list_of_33_bytes() {
    let (mut words, mut lists) = after_line_3(5);
    offer(&mut words, &mut lists, &[P, O], 1);
    answer(&mut words, &mut lists, 0);
    let expected = [
        &[2, 0, 0, 0, 1, 0, 1, 0][..],
        &[2, 0, 0, 0, 2, 0, 0, 1],
        &[2, 0, 0, 0, 3, 0, 1, 0],
        &[3, 0, 0, 0, 3, 0, 0, 0, 1],
    ]
    .concat();
    assert_eq!(expected.len(), 33);
    let mut out = [9; 40];
    let emitted = emit(&words, &lists, &mut out);
    assert_eq!((emitted.number, emitted.size), (0, 33));
    assert_eq!(out[..33], expected);
    assert_eq!(out[33..], [9; 7]);
    assert_eq!(emit(&words, &lists, &mut out[..33]).size, 33);
    let mut short = [9; 32];
    assert_eq!(emit(&words, &lists, &mut short).number, 20);
    assert_eq!(short, [9; 32]);
    assert_eq!((load(&expected).number, load(&expected).size), (0, 2));
    let read = automaton(&expected).unwrap();
    assert_eq!((read.counts, read.finals), (vec![1, 0], vec![false, true]));
    accept(&mut words, &mut lists);
    assert_eq!(emit(&words, &lists, &mut out).size, 33);
}

#[test]
fn fresh_refusals() {
    let (mut words, mut lists) = fresh(9);
    let before = (words.clone(), lists.clone());
    let mut offered = |symbols: &[u8], mark| offer(&mut words, &mut lists, symbols, mark).number;
    assert_eq!(offered(&[], 1), 11);
    assert_eq!(offered(&[O], 1), 14);
    assert_eq!(offered(&[P, P], 1), 15);
    assert_eq!(offered(&[2], 1), 13);
    assert_eq!(offered(&[P, O], 0), 32);
    assert_eq!(offered(&[O, 2], 1), 14, "the first symbol at fault");
    assert_eq!(offered(&[2, O], 1), 13, "the first symbol at fault");
    assert_eq!(offered(&[P, P], 7), 15, "before the mark");
    assert_eq!(offered(&[P], 2), 16);
    assert_eq!(answer(&mut words, &mut lists, 1), refused(31));
    assert_eq!(answer(&mut words, &mut lists, 5), refused(31));
    assert_eq!((words, lists), before);
}

#[test]
fn refusals_after_line_3() {
    let (mut words, mut lists) = after_line_3(9);
    let before = (words.clone(), lists.clone());
    assert_eq!(offer(&mut words, &mut lists, &[P], 1), refused(33));
    assert_eq!(offer(&mut words, &mut lists, &[P, O], 0), refused(33));
    assert_eq!((words, lists), before);
}

#[test]
fn longest_offer() {
    let (mut words, mut lists) = fresh(16_384);
    let mut symbols = vec![P];
    symbols.resize(1_025, O);
    let seen = offer(&mut words, &mut lists, &symbols, 1);
    assert_eq!(seen, refused(12), "under 1,024 links");
    let seen = offer(&mut words, &mut lists, &symbols[..1_024], 1);
    assert_eq!(seen, asking(1, 0, 1, 2), "under 1,023 links");
    assert_eq!(lists.used, 1 + 1_024 + 1_023);
}

#[test]
fn start_refuses_and_reads_nothing() {
    let mut lists = Lists::zeroed();
    lists.used = 65_535;
    lists.accepted = 99;
    let before = lists.clone();
    for size in [0, 1, 5, 7, 11, 13, 16_385 * ROW_WORDS] {
        let mut words = vec![3; size];
        assert_eq!(
            start(&mut words, &mut lists, &[]),
            refused(18),
            "{size} words"
        );
    }
    let mut words = vec![3; 12];
    assert_eq!(start(&mut words, &mut lists, &[]), refused(17));
    assert_eq!(start(&mut words, &mut lists, &[0; 65]), refused(17));
    assert_eq!(start(&mut words, &mut lists, &[0, 5]), refused(17));
    assert_eq!((&words, &lists), (&vec![3; 12], &before));
    assert_eq!(start(&mut words, &mut lists, &[4; 64]), proposing(0, 0, 1));
    assert_eq!(words, [255, 0, 0, 0, 0, 0, 3, 3, 3, 3, 3, 3]);
}

#[test]
fn order_of_refusals() {
    let (mut words, mut lists) = fresh(9);
    lists.accepted = 2;
    assert_eq!(look(&words[1..], &lists), refused(18), "18 before 30");
    assert_eq!(
        offer(&mut words, &mut lists, &[], 7),
        refused(30),
        "30 before 11"
    );
    lists.accepted = 1;
    assert_eq!(
        offer(&mut words, &mut lists, &[], 7),
        refused(31),
        "31 before 11"
    );
    lists.accepted = 0;
    let long = [9; 1_025];
    assert_eq!(
        offer(&mut words, &mut lists, &long, 7),
        refused(12),
        "12 before 13"
    );
    assert_eq!(
        offer(&mut words, &mut lists, &[P], 7),
        refused(16),
        "16 before 32"
    );
    let (mut words, mut lists) = after_line_3(9);
    assert_eq!(
        offer(&mut words, &mut lists, &[P], 0),
        refused(32),
        "33 does not apply"
    );
    assert_eq!(
        offer(&mut words, &mut lists, &[P], 1),
        refused(33),
        "32 does not apply"
    );
    assert_eq!(
        offer(&mut words, &mut lists, &[P, O], 0),
        refused(33),
        "33 before 32"
    );
}

/// The layout that hosts rely on.
#[test]
fn layout() {
    use std::mem::{offset_of, size_of};
    assert_eq!(size_of::<Lists>(), 1_232);
    assert_eq!(
        (offset_of!(Lists, counts), offset_of!(Lists, accepted)),
        (1, 65)
    );
    assert_eq!(offset_of!(Lists, used), 66);
    assert_eq!((offset_of!(Lists, states), offset_of!(Lists, s)), (68, 70));
    assert_eq!((offset_of!(Lists, rules), offset_of!(Lists, t)), (134, 136));
    assert_eq!(
        (offset_of!(Lists, contexts), offset_of!(Lists, c)),
        (648, 650)
    );
    assert_eq!(
        (offset_of!(Lists, hand), offset_of!(Lists, asked)),
        (1_228, 1_230)
    );
    assert_eq!((offset_of!(Seen, row), offset_of!(Seen, states)), (2, 4));
    assert_eq!(
        (offset_of!(Seen, rules), offset_of!(Seen, contexts)),
        (6, 8)
    );
    assert_eq!(offset_of!(Emitted, size), 4);
    assert_eq!((size_of::<Seen>(), size_of::<Emitted>()), (10, 8));
    assert_eq!(
        (offset_of!(Judged, outcome), offset_of!(Judged, place)),
        (1, 2)
    );
    assert_eq!(size_of::<Judged>(), 4);
}
