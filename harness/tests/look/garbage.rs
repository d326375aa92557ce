//! Words and lists that mean nothing, or little.

use crate::compare::{look, Met};
use harness::cases::rubbish::{random_tables, small_numbers};
use harness::teacher::Taught;
use oracle::testing::damage::damage;
use oracle::testing::watch::each_case;

#[test]
fn random_words_and_lists() {
    each_case(101, 0..20_000, |_, random| {
        look(&random_tables(random));
    });
}

/// Some of these tables are sound.
#[test]
fn small_numbers_after_row_0() {
    let mut met = Met::default();
    each_case(102, 0..150_000, |_, random| {
        met.look(&small_numbers(random));
    });
    assert!(met.asking > 20 && met.proposing > 20, "{met:?}");
}

/// Tables of runs with up to six fields damaged.
#[test]
fn damaged_at_several_places() {
    each_case(103, 0..6_000, |_, random| {
        let mut run = Taught::random(random);
        for _ in 0..random.below(30) {
            run.step(random);
        }
        for _ in 0..4 {
            let mut tables = run.tables.clone();
            (0..random.within(1, 6)).for_each(|_| damage(&mut tables, random));
            look(&tables);
        }
    });
}
