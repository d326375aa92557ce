//! Sound tables with one field damaged, every field in turn, and every call on them.

use harness::cases::compare::Met;
use harness::cases::damage::{after_some_calls, damaged_run, every_field, in_hand, several_fields};
use harness::cases::on_a_small_stack;
use oracle::testing::big;
use oracle::testing::watch::each_case;

/// Tables of each sort: proposing, accepted, asking, asking with a record in hand.
#[test]
fn fresh_tables() {
    let mut met = Met::default();
    let mut left = [24, 4, 24, 24];
    each_case(231, 0..4_000, |_, random| {
        let (sort, tables) = after_some_calls(random);
        if left[sort] > 0 && tables.lists.rules > 1 && tables.lists.used < 60 {
            left[sort] -= 1;
            every_field(tables, &mut met);
        }
    });
    assert_eq!(left, [0; 4]);
    met.at_least(2_000, [0, 30, 31]);
    met.at_least(200, [32, 33, 34]);
    met.judged_at_least(2_000, [30, 31]);
}

#[test]
fn tables_with_a_record_in_hand() {
    let (mut met, mut left) = (Met::default(), 60);
    each_case(232, 0..4_000, |_, random| {
        let found = in_hand(random).filter(|tables| left > 0 && tables.lists.used < 40);
        if let Some(tables) = found {
            left -= 1;
            every_field(tables, &mut met);
        }
    });
    assert!(met.moved > 2_000, "{met}");
}

/// Runs with up to four fields damaged.
#[test]
fn runs() {
    let mut met = Met::default();
    each_case(233, 0..12_000, |_, random| {
        damaged_run(random, &mut met);
    });
    met.at_least(300, [0, 18, 30, 31]);
    met.judged_at_least(20, [13, 14, 15, 18, 30, 31]);
}

/// On a stack of 4 MB: the deepest fills take more than a test has by itself.
#[test]
fn full_tables() {
    on_a_small_stack(damaged_full_tables).unwrap();
}

fn damaged_full_tables() {
    let mut met = Met::default();
    let all = [
        big::full(7_700, 7_800),
        big::proposing(40),
        big::spine(4_000),
        big::exchanges(9_000),
        big::doubling(9_000),
        big::beside(),
    ];
    each_case(234, 0..180, |case, random| {
        let tables = all[case as usize % all.len()].clone();
        several_fields(tables, 1, random, &mut met);
    });
    met.at_least(20, [0, 30]);
    met.judged_at_least(1, [18, 30, 31]);
}
