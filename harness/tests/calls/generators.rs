//! The generators end, however little there is to make a table or a record of: one symbol without children, no such
//! symbol at all, one record, no row left.

use harness::aimed::Aim;
use harness::asked;
use harness::cases::colliding;
use harness::cases::compare::Met;
use harness::cases::rubbish;
use harness::colliding::{ALL, FEW};
use harness::crowded::Crowded;
use harness::difference::difference;
use harness::lent::ROWS_MAX;
use harness::listing;
use harness::random::Random;
use harness::scripts;
use harness::sound;
use harness::strange::Strange;
use harness::targets;
use harness::teaching::started;
use oracle::testing::big;
use oracle::testing::target::Target;
use oracle::testing::watch::each_case;

/// Small alphabets, those of the second half without a leaf.
const ALPHABETS: [&[u8]; 12] = [
    &[0],
    &[0, 0],
    &[0, 1],
    &[4, 0],
    &[0, 4, 4],
    &[0; 63],
    &[1],
    &[2],
    &[4],
    &[1, 1],
    &[1, 2, 3, 4],
    &[4; 63],
];

/// A started run over an alphabet, with up to so many records, and so many rows lent.
fn strange(counts: &[u8], records: usize, rows: usize, seed: u64) -> Strange {
    let mut strange = Strange::of(started(counts, 1), rows);
    let random = &mut oracle::testing::random::Random::new(seed);
    strange.heap(random, records);
    strange.take_in_hand(random);
    (strange.tables.lists.hand, strange.tables.lists.asked) = (0, 0);
    strange
}

const AIMS: [Aim; 5] = [
    Aim::Scattered,
    Aim::OneBucket,
    Aim::Trees(0),
    Aim::Trees(8),
    Aim::Trees(ROWS_MAX),
];

/// Records scattered or made against the index, over few records or none.
#[test]
fn crowded_tables() {
    each_case(261, 0..480, |case, random| {
        let counts = ALPHABETS[case as usize % ALPHABETS.len()];
        let records = *random.pick(&[0, 1, 2, 3, 8]);
        let tables = strange(counts, records, 30, case).tables;
        let mut crowded = Crowded::over(tables, random.within(0, 3), random.within(30, 400));
        let rows = random.within(0, 40);
        crowded.add(*random.pick(&AIMS), rows);
        let tables = &crowded.strange.tables;
        assert_eq!(oracle::look(&tables.words, &tables.lists).number, 0);
        let added = tables.lists.used as usize - 1;
        assert!(added <= 8 + rows);
        assert!(counts.contains(&0) || added == 0);
    });
}

/// One record has one parent of four equal children, these two have 15 more, and no row is left for more.
#[test]
fn crowded_to_the_last() {
    for aim in AIMS {
        let mut crowded = Crowded::over(strange(&[0], 1, 2, 1).tables, 1, 30);
        crowded.add(aim, 1);
        assert_eq!(crowded.strange.records.len(), 2);
        crowded.add(aim, 4);
        assert_eq!(crowded.strange.records.len(), 6);
    }
    let tables = Crowded::over(big::spine(8_000), 1, ROWS_MAX).filled(Aim::Scattered);
    assert_eq!(tables.lists.used as usize, ROWS_MAX);
    let mut full = Crowded::over(tables.clone(), 1, ROWS_MAX);
    full.add(Aim::OneBucket, 100);
    assert!(full.strange.tables.words == tables.words);
}

/// The smallest of the tables that `differ` crowds: three records, four and five.
#[test]
fn crowded_small_tables() {
    let mut met = Met::default();
    let all = [big::deep_context(1), big::exchanges(2), big::doubling(1)];
    each_case(264, 0..3, |case, _| {
        let tables = all[case as usize].clone();
        let rounds = [
            (Aim::OneBucket, 900),
            (Aim::Trees(250), 500),
            (Aim::Scattered, 66),
        ];
        colliding::lent(tables, ROWS_MAX, &rounds, &mut met);
    });
    met.at_least(3, [0]);
}

/// A table has as many rows as are asked for, few or many, whatever its nodes are aimed at; at least its leaves.
#[test]
fn crowds() {
    each_case(265, 0..30, |case, random| {
        let sort = [FEW, ALL].concat()[case as usize % 6];
        let rows = random.within(21, 900);
        let room = random.within(rows, 1_000);
        assert_eq!(sort.table(rows, room).used as usize, rows);
        assert!(sort.table(0, 1).used <= 21);
    });
}

/// Tables and listed records over alphabets that allow few or none.
#[test]
fn tables_and_listed_records() {
    each_case(262, 0..2_400, |case, random| {
        let counts = ALPHABETS[case as usize % ALPHABETS.len()];
        let (rows, size) = (random.within(1, 300), random.within(1, 300));
        let random = &mut Random::new(random.bits());
        let lent = sound::over(random, counts, rows);
        assert!((1..=rows).contains(&(lent.used as usize)));
        let symbols = listing::record(random, counts, size);
        assert!(symbols.len() <= 4 * size);
        assert!(counts.contains(&0) || symbols.is_empty());
        let strange = strange(counts, rows, 301, case);
        assert!(strange.records.len() <= rows);
    });
}

/// Records to ask a verdict on: from sound tables that allow few or none, from rubbish, and the same from the same tables.
#[test]
fn records_to_judge() {
    each_case(266, 0..2_400, |case, random| {
        let counts = ALPHABETS[case as usize % ALPHABETS.len()];
        let tables = strange(counts, random.within(0, 9), 30, case).tables;
        let draw = &mut asked::random_of(&tables);
        let symbols = asked::any(&tables, draw);
        let again = asked::any(&tables, &mut asked::random_of(&tables));
        assert!(symbols.len() <= 3_000 && symbols == again);
        let stored = asked::stored_or_over(&tables, draw);
        assert!(counts.contains(&0) || stored.is_none());
        for sort in [rubbish::random_tables, rubbish::small_numbers] {
            let symbols = asked::any(&sort(random), draw);
            assert!(symbols.len() <= 3_000);
        }
    });
}

/// Automata over one symbol and over many, scripts over alphabets with and without a leaf.
#[test]
fn automata_and_scripts() {
    each_case(263, 0..2_400, |_, random| {
        let (states, letters) = (random.within(1, 32), random.within(1, 3));
        let rules = random.within(0, 100);
        let target = targets::random(random, states, letters, rules);
        assert!(target.automaton.rules.len() <= rules.max(states));
        let record = Target::random_record(target.counts(), random, 300);
        assert!((1..=300).contains(&record.len()));
        assert!(scripts::any_lines(random).len() < 1 << 20);
        assert!(scripts::loose(random).len() < 1 << 10);
    });
}

/// No record of fewer than 2^31 symbols tells these apart, and some sizes do not fit in 64 bits.
#[test]
fn differences_too_large() {
    let (one, other) = (Target::depths(31), Target::depths(32));
    assert_eq!(difference(&one, &other), None);
    assert_eq!(difference(&one, &one), None);
}
