//! The fast learner against the naive one on small tables of every sort.

use oracle::testing::cases::{damaged_case, elsewhere_case, fresh_case, rubbish_case, Met};
use oracle::testing::compare::{agree, fast, Call, Tables};
use oracle::testing::damage::unfolds_small;
use oracle::testing::marks::{random_run, Marks};
use oracle::testing::random::Random;
use oracle::testing::stored;
use oracle::testing::watch::each_case;
use oracle::Seen;

fn cases(seed: u64, count: u64, case: fn(&mut Random, &mut Met)) -> Met {
    let mut met = Met::default();
    each_case(seed, 0..count, |_, random| case(random, &mut met));
    println!("{met:?}");
    met
}

#[test]
fn fresh_runs() {
    let met = cases(21, 6_000, fresh_case);
    assert!(met.unsound == 0 && met.calls > 40_000 && met.shortages > 500);
    let verdicts = met.verdicts;
    assert!(verdicts.accepted > 2_000 && verdicts.not_final > 2_000);
    assert!(verdicts.first > 2_000 && verdicts.later > 2_000 && verdicts.refused > 2_000);
}

#[test]
fn tables_from_elsewhere() {
    let met = cases(22, 20_000, elsewhere_case);
    assert!(met.unsound > 500 && met.proposing > 2_000 && met.asking > 5_000);
    assert!(met.in_hand > 3_000 && met.moved > 4_000 && met.accepted > 100);
    assert!(met.overfull > 100 && met.shortages > 500);
    let verdicts = met.verdicts;
    assert!(verdicts.accepted > 2_000 && verdicts.not_final > 2_000);
    assert!(verdicts.first > 2_000 && verdicts.later > 2_000 && verdicts.refused > 2_000);
}

#[test]
fn damaged_tables() {
    let met = cases(23, 2_500, damaged_case);
    assert!(met.unsound > 2_000 && met.proposing > 1_000);
}

/// A mark against each stored answer.
#[test]
fn stored_answers() {
    stored::six_cases(agree);
    stored::no_other_pair(agree);
}

/// By both learners where the trees are small enough for the naive one.
fn agree_small(tables: &mut Tables, call: &Call) -> Seen {
    if unfolds_small(tables) {
        return agree(tables, call);
    }
    let outcome = fast(tables, call);
    *tables = outcome.tables;
    outcome.seen
}

/// Marks against what was said: some offers get 33 that got 32 while 32 came first, and each is contradicted.
#[test]
fn marks_in_runs() {
    let mut marks = Marks::default();
    each_case(25, 0..300, |_, random| {
        random_run(random, 40, &mut marks, agree_small);
    });
    println!("{marks:?}");
    assert!(marks.changed > 3_000 && marks.contradicted > 30_000);
    assert!(marks.agreed > 30_000 && marks.others > 5_000);
    let verdicts = marks.verdicts;
    assert!(verdicts.accepted > 2_000 && verdicts.not_final > 2_000);
    assert!(verdicts.first > 2_000 && verdicts.later > 2_000 && verdicts.refused == 0);
}

#[test]
fn rubbish() {
    cases(24, 20_000, rubbish_case);
}
