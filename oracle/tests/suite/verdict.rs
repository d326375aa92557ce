//! Verdicts on listed records: the outcomes, the place where a rule is missing, and the order
//! of refusals. Where nothing else is said, symbol 0 is `o` with one child, `p` is 1 without.

use crate::limits::one_chain;
use oracle::limits::{RECORD_MAX, ROW_WORDS};
use oracle::testing::checked::{learn, Checked};
use oracle::testing::compare::{agree, judge, Call, Tables};
use oracle::testing::random::Random;
use oracle::testing::target::Target;
use oracle::testing::verdicts::{long_case, Verdicts};
use oracle::testing::watch::each_case;
use oracle::{verdict, Judged, Lists, ACCEPTED, ACCEPTS, ASKING, NOT_FINAL, NO_RULE, PROPOSING};

const O: u8 = 0;
const P: u8 = 1;

fn told(outcome: u8, place: u16) -> Judged {
    Judged {
        number: 0,
        outcome,
        place,
    }
}

fn refused(number: u8) -> Judged {
    Judged {
        number,
        ..Judged::default()
    }
}

/// A run over so many rows, started by both learners.
fn started(counts: &[u8], rows: usize) -> Tables {
    let mut tables = Tables {
        words: vec![77; rows * ROW_WORDS],
        lists: Lists::zeroed(),
    };
    agree(&mut tables, &Call::Start(counts.to_vec()));
    tables
}

/// The chain of so many symbols.
fn chain(symbols: usize) -> Vec<u8> {
    let mut chain = vec![P];
    chain.resize(symbols, O);
    chain
}

/// The tables of the worked run after each of its lines.
fn worked() -> Vec<Tables> {
    let mut tables = started(&[1, 0], 9);
    let mut all = vec![tables.clone()];
    let offer = Call::Offer(vec![P, O], 1);
    let lines = [&offer, &Call::Answer(0), &offer, &Call::Answer(0)];
    for call in lines.into_iter().chain([&Call::Accept]) {
        assert_eq!(agree(&mut tables, call).number, 0);
        all.push(tables.clone());
    }
    all
}

#[test]
fn the_worked_run() {
    let all = worked();
    let verdicts = |line: usize| [1, 2, 3, 4].map(|size| judge(&all[line - 1], &chain(size)));
    assert_eq!(verdicts(1), [told(NO_RULE, 0); 4]);
    assert_eq!(verdicts(2), [refused(31); 4]);
    let none = told(NO_RULE, 1);
    assert_eq!(verdicts(3), [told(NOT_FINAL, 0), none, none, none]);
    assert_eq!(verdicts(4), [refused(31); 4]);
    let (p, none) = (told(NOT_FINAL, 0), told(NO_RULE, 2));
    assert_eq!(verdicts(5), [p, told(ACCEPTS, 0), none, none]);
    assert_eq!(verdicts(6), verdicts(5), "the accepted run tells the same");
}

/// Each refusal with everything that comes after it wrong as well.
#[test]
fn order_of_refusals() {
    let mut broken = [0xFF; RECORD_MAX + 1];
    broken[0] = O;
    for tables in worked() {
        let Tables { words, lists } = &tables;
        let mut unsound = lists.clone();
        unsound.accepted = 2;
        for symbols in [&[][..], &broken, &[2, O], &[O, 2], &[P, P], &[P]] {
            assert_eq!(verdict(&words[1..], &unsound, symbols), refused(18));
            assert_eq!(verdict(&[], &unsound, symbols), refused(18));
            assert_eq!(verdict(words, &unsound, symbols), refused(30));
        }
        let phase = lists.seen().phase;
        assert!([PROPOSING, ASKING, ACCEPTED].contains(&phase));
        for (symbols, number) in [
            (&[][..], 11),
            (&broken, 12),
            (&broken[1..], 13),
            (&[2, O], 13),
            (&[O, 2], 14),
            (&[P, O, O, 2, P], 13),
            (&[P, P, 2], 13),
            (&[P, P], 15),
            (&[P, P, O], 15),
        ] {
            let right = if phase == ASKING { 31 } else { number };
            assert_eq!(judge(&tables, symbols), refused(right), "{symbols:?}");
        }
    }
}

/// Symbols 0 to 4 have as many children and a rule each, over the one state there is. So
/// have symbols 5 to 9, their twins, but no rule.
fn twins() -> Tables {
    let mut tables = started(&[0, 1, 2, 3, 4, 0, 1, 2, 3, 4], 9);
    for count in 0..5 {
        let mut record = vec![0; count];
        record.push(count as u8);
        let seen = agree(&mut tables, &Call::Offer(record, 1));
        assert_eq!((seen.states, seen.rules), (1, count as u16 + 1));
    }
    tables
}

/// A random record of exactly so many symbols out of 0 to 4.
fn record_of(size: usize, random: &mut Random) -> Vec<u8> {
    let mut record = Vec::new();
    let mut trees = 0;
    for left in (0..size).rev() {
        // Each symbol that is left can take away three trees, and not the last one.
        let fits = |&symbol: &usize| symbol <= trees && trees - symbol <= 3 * left;
        let fitting: Vec<usize> = (0..5).filter(fits).collect();
        let symbol = *random.pick(&fitting);
        trees = trees + 1 - symbol;
        record.push(symbol as u8);
    }
    assert_eq!(trees, 1);
    record
}

/// A chain, and trees that grow at their left and at their right.
fn shapes(size: usize) -> Vec<Vec<u8>> {
    let mut chain = vec![1; size];
    chain[0] = 0;
    let mut left = [0, 2].repeat(size / 2 - 1);
    left.insert(0, 0);
    left.push(1);
    let mut right = vec![0; size / 2];
    right.resize(size - 1, 2);
    right.push(1);
    vec![chain, left, right]
}

/// Makes each place of a record the first without a rule: alone, and with none after it.
fn each_place(record: &[u8], judged: impl Fn(&[u8]) -> Judged) {
    assert_eq!(judged(record), told(ACCEPTS, 0));
    let mut all = record.to_vec();
    for place in (0..record.len()).rev() {
        let mut alone = record.to_vec();
        alone[place] += 5;
        all[place] += 5;
        let right = told(NO_RULE, place as u16);
        assert_eq!(judged(&alone), right, "{alone:?}");
        assert_eq!(judged(&all), right, "{all:?}");
    }
}

#[test]
fn every_place() {
    let tables = twins();
    let random = &mut Random::new(82);
    for size in 1..40 {
        let mut records = vec![record_of(size, random)];
        if size > 1 && size.is_multiple_of(2) {
            records.extend(shapes(size));
        }
        for record in records {
            each_place(&record, |symbols| judge(&tables, symbols));
        }
    }
}

/// The same for records of 1,024 symbols, by the fast learner; by both for some.
#[test]
fn every_place_of_long_records() {
    let tables = twins();
    let random = &mut Random::new(83);
    let mut records = shapes(RECORD_MAX);
    records.extend((0..5).map(|_| record_of(RECORD_MAX, random)));
    for record in records {
        assert_eq!(record.len(), RECORD_MAX);
        each_place(&record, |symbols| {
            verdict(&tables.words, &tables.lists, symbols)
        });
        for _ in 0..20 {
            let mut other = record.clone();
            other[random.below(RECORD_MAX)] += 5;
            assert_eq!(judge(&tables, &other).outcome, NO_RULE);
        }
        let longer = [&record[..], &[1]].concat();
        assert_eq!(judge(&tables, &longer), refused(12));
    }
}

/// Links counted modulo two: the longest chains, of which the accepted run still tells.
#[test]
fn longest_chains() {
    let even = Target::of(&[1, 0], &[1, 0], &[(1, &[], 0), (0, &[0], 1), (0, &[1], 0)]);
    let (run, seen) = learn(&even, 100);
    assert_eq!((seen.number, run.lists.accepted), (0, 1));
    let tables = Tables {
        words: run.words.clone(),
        lists: run.lists.clone(),
    };
    for symbols in [1, 2, 3, 1_022, 1_023, 1_024] {
        let outcome = if symbols % 2 == 1 { ACCEPTS } else { NOT_FINAL };
        assert_eq!(judge(&tables, &chain(symbols)), told(outcome, 0));
    }
    assert_eq!(judge(&tables, &chain(1_025)), refused(12));
    assert_eq!(judge(&tables, &[2; 1_025]), refused(12));
}

/// The one chain with 31 links is learnt link by link: each proposal has a rule more, and
/// longer chains fall off at the next link.
#[test]
fn chain_link_by_link() {
    let target = one_chain(31);
    let mut run = Checked::start(&[1, 0], 4_000, Some(&target));
    for known in 0..=32 {
        assert_eq!(run.lists.rules, known);
        for symbols in [33, 100, 1_024] {
            let judged = verdict(&run.words, &run.lists, &chain(symbols));
            assert_eq!(judged, told(NO_RULE, known), "{symbols} symbols");
        }
        for symbols in 1..=known as usize {
            let outcome = if symbols == 32 { ACCEPTS } else { NOT_FINAL };
            let judged = verdict(&run.words, &run.lists, &chain(symbols));
            assert_eq!(judged, told(outcome, 0), "{symbols} symbols");
        }
        if known < 32 {
            let seen = run.offer(&chain(32), 1);
            assert_eq!(run.answer_all(&target, seen).number, 0);
        }
    }
}

#[test]
fn long_records() {
    let mut met = Verdicts::default();
    each_case(81, 0..2_000, |_, random| long_case(random, &mut met));
    println!("{met:?}");
    assert!(met.accepted > 2_000 && met.not_final > 300);
    assert!(met.first > 2_000 && met.later > 2_000 && met.refused == 0);
}
