//! A mark against each stored answer (docs/SPECIFICATION.md, 5.2): 33 in two of six cases, with either verdict; and against
//! what was said in a run (5.3).

use harness::cases::compare::{both, Met};
use oracle::testing::marks::{random_run, Marks};
use oracle::testing::stored;
use oracle::testing::watch::each_case;

#[test]
fn six_cases() {
    let mut met = Met::default();
    stored::six_cases(|tables, call| met.call(tables, call));
}

#[test]
fn no_other_pair() {
    let mut met = Met::default();
    stored::no_other_pair(|tables, call| met.call(tables, call));
}

/// Some offers get 33 that got 32 while 32 came first. Each of them is contradicted by what was said, and no other changed.
#[test]
fn marks_in_runs() {
    let mut marks = Marks::default();
    each_case(205, 0..500, |_, random| {
        random_run(random, 80, &mut marks, both);
    });
    println!("{marks:?}");
    assert!(marks.changed > 10_000 && marks.contradicted > 100_000);
    assert!(marks.agreed > 100_000 && marks.others > 20_000);
}
