//! The verdict on a listed record (docs/SPECIFICATION.md, 3.8): its numbers in order, every place, long records; against trees,
//! against the emitted list, and beside offers.

use harness::cases::compare::Met;
use harness::cases::judging::{call_and_judge, over_trees};
use harness::teaching::started;
use oracle::limits::{RECORD_MAX, ROW_WORDS};
use oracle::testing::big;
use oracle::testing::compare::{Call, Tables};
use oracle::testing::marks::{random_run, Marks};
use oracle::testing::random::Random;
use oracle::testing::target::Target;
use oracle::testing::watch::each_case;
use oracle::{Judged, Lists, ACCEPTS, NOT_FINAL, NO_RULE};

const LEAF: u8 = 0;
const LINK: u8 = 1;
const PAIR: u8 = 2;
/// So much higher is a symbol of as many children that has no rule.
const WITHOUT: u8 = 3;

/// Tables that propose one state, which is final, for all records over the leaf, the link and the pair.
fn one_state() -> Tables {
    let rows = [
        [255, 0, 0, 0, 0, 0],
        [LEAF as u32, 2, 0, 0, 0, 0],
        [LINK as u32, 2, 1, 0, 0, 0],
        [PAIR as u32, 2, 1, 1, 0, 0],
    ];
    let mut words = rows.concat();
    words.resize(9 * ROW_WORDS, 77);
    let mut lists = Lists::zeroed();
    lists.counts[..6].copy_from_slice(&[0, 1, 2, 0, 1, 2]);
    (lists.letters, lists.used) = (6, 4);
    (lists.states, lists.rules, lists.contexts) = (1, 3, 1);
    lists.s[0] = 1;
    lists.t[..3].copy_from_slice(&[1, 2, 3]);
    Tables { words, lists }
}

fn taken(outcome: u8) -> Judged {
    Judged {
        outcome,
        ..Judged::default()
    }
}

fn no_rule(place: usize) -> Judged {
    Judged {
        place: place as u16,
        ..taken(NO_RULE)
    }
}

/// A leaf under links: so many symbols.
fn chain(length: usize) -> Vec<u8> {
    let mut symbols = vec![LINK; length];
    symbols[0] = LEAF;
    symbols
}

/// Records of up to 1,024 symbols: a chain, pairs at the left and at the right, any.
fn shapes() -> Vec<Vec<u8>> {
    let left = [vec![LEAF], [LEAF, PAIR].repeat(511)].concat();
    let right = [vec![LEAF; 512], vec![PAIR; 511]].concat();
    let mut found = vec![chain(1), chain(2), chain(RECORD_MAX), left, right];
    let random = &mut Random::new(271);
    let counts = [0, 1, 2];
    found.extend([3, 9, 30, RECORD_MAX].map(|most| Target::random_record(&counts, random, most)));
    found
}

/// Every place as the first whose symbol finds no rule: the only one, and with more of them at all places after it.
#[test]
fn every_place() {
    let (mut met, tables) = (Met::default(), one_state());
    for shape in shapes() {
        assert_eq!(met.verdict(&tables, &shape), taken(ACCEPTS));
        for place in 0..shape.len() {
            let mut symbols = shape.clone();
            symbols[place] += WITHOUT;
            assert_eq!(met.verdict(&tables, &symbols), no_rule(place));
            let later = symbols[place + 1..].iter_mut();
            later.for_each(|symbol| *symbol += WITHOUT);
            assert_eq!(met.verdict(&tables, &symbols), no_rule(place));
        }
    }
}

/// 32 states counted modulo 32. Symbol 8 leads from state q to 6 + 3q, and has no rule over state 31.
#[test]
fn every_state() {
    let (mut met, tables) = (Met::default(), big::proposing(66));
    let places = (1..70).chain([511, 512, 513, 991, 992, 993, 1_022, 1_023]);
    for place in places {
        let mut symbols = chain(RECORD_MAX);
        symbols[place] = 8;
        let (state, links) = ((place - 1) % 32, RECORD_MAX - 1 - place);
        let told = match (state, (6 + 3 * state + links) % 32) {
            (31, _) => no_rule(place),
            (_, 0) => taken(ACCEPTS),
            _ => taken(NOT_FINAL),
        };
        assert_eq!(met.verdict(&tables, &symbols), told, "{place}");
    }
    met.judged_at_least(2, []);
}

/// Up to 1,024 symbols there is a verdict, with more 12, also where the low bytes of the length are small.
#[test]
fn lengths() {
    let mut met = Met::default();
    let mut tables = one_state();
    for accepted in [0, 1] {
        tables.lists.accepted = accepted;
        for length in [1, 2, 255, 256, 257, 1_023, 1_024] {
            assert_eq!(met.verdict(&tables, &chain(length)), taken(ACCEPTS));
        }
        for length in [1_025, 1_026, 65_535, 65_536, 65_537, 66_560, 70_000] {
            met.verdict_refused(&tables, &chain(length), 12);
            met.verdict_refused(&tables, &vec![255; length], 12);
        }
        met.verdict_refused(&tables, &[LEAF; 1_024], 15);
        met.verdict_refused(&tables, &[LINK; 1_024], 14);
    }
}

/// What is wrong with each of these is told by its number, in any phase but asking.
const FAULTS: [(&[u8], u8); 12] = [
    (&[], 11),
    (&[6], 13),
    (&[255], 13),
    (&[LEAF, 6], 13),
    (&[6, PAIR], 13),
    (&[PAIR, 6], 14),
    (&[LINK], 14),
    (&[LEAF, PAIR], 14),
    (&[LEAF, LEAF], 15),
    (&[LEAF, LEAF, 6], 13),
    (&[LEAF, LEAF, PAIR, LEAF], 15),
    (&[LEAF, WITHOUT, LEAF], 15),
];

/// 18 before 30, 30 before 31, 31 before 11 to 15.
#[test]
fn numbers_in_order() {
    let (mut met, mut tables) = (Met::default(), one_state());
    for accepted in [0, 1] {
        tables.lists.accepted = accepted;
        for (symbols, number) in FAULTS {
            met.verdict_refused(&tables, symbols, number);
        }
    }
    tables.lists.accepted = 0;
    let offer = Call::Offer(vec![LEAF, LINK, LINK, LINK], 0);
    assert_eq!(met.call(&mut tables, &offer).number, 0);
    assert_ne!(tables.lists.asked, 0);
    let mut unsound = tables.clone();
    unsound.lists.contexts = 0;
    let mut cut = unsound.clone();
    cut.words.pop();
    let records = FAULTS.map(|(symbols, _)| symbols).into_iter();
    for symbols in records.chain([&[LEAF][..], &[255; 1_025]]) {
        met.verdict_refused(&tables, symbols, 31);
        met.verdict_refused(&unsound, symbols, 30);
        met.verdict_refused(&cut, symbols, 18);
    }
}

/// Words of every length, before a start and after it.
#[test]
fn words_lent() {
    let mut met = Met::default();
    let fresh = started(&[1, 0], 1);
    for size in [0, 1, 5, 6, 7, 12, 98_304, 98_305, 98_310, 196_608] {
        let fits = size % 6 == 0 && (6..=98_304).contains(&size);
        for (lists, number) in [(&fresh.lists, 0), (&Lists::zeroed(), 30)] {
            let (mut words, lists) = (fresh.words.clone(), lists.clone());
            words.resize(size, 7);
            let told = met.verdict(&Tables { words, lists }, &[1, 0]);
            assert_eq!(told.number, if fits { number } else { 18 });
        }
    }
}

/// Random automata and records: the place is that over trees, and that by the emitted list.
#[test]
fn random_automata() {
    let mut met = Met::default();
    each_case(272, 0..1_500, |_, random| over_trees(random, &mut met));
    met.judged_at_least(50, [11, 13, 14, 15]);
}

/// An offer with 32 changes nothing, and the verdict on its record is what its mark says.
#[test]
fn after_32() {
    let (mut met, mut marks) = (Met::default(), Marks::default());
    each_case(273, 0..100, |_, random| {
        random_run(random, 80, &mut marks, |tables, call| {
            call_and_judge(tables, call, &mut met)
        });
    });
    println!("{marks:?}");
    let told = marks.verdicts;
    assert!(told.accepted > 1_000 && told.not_final > 1_000);
    assert!(told.first > 1_000 && told.later > 1_000);
}
