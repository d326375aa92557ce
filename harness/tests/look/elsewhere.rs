//! Tables from elsewhere: sound ones that no run leaves, and some that are nearly sound.

use crate::compare::Met;
use harness::cases::elsewhere::{heaped, loose};
use harness::strange::{renumbered, shuffled};
use harness::teacher::Taught;
use oracle::limits::ROWS_MAX;
use oracle::testing::big;
use oracle::testing::target::Target;
use oracle::testing::watch::each_case;

#[test]
fn changed_trees() {
    let mut met = Met::default();
    each_case(81, 0..24_000, |_, random| {
        let target = Target::random(random);
        if let Some(loose) = loose(target, random) {
            met.look(&loose.tables(random));
        }
    });
    met.at_least(50, 1_000);
}

/// Hands that unfold to thousands of symbols and to more than could be written down.
#[test]
fn shared_records_in_hand() {
    let mut met = Met::default();
    each_case(82, 0..6_000, |_, random| {
        if let Some(tables) = heaped(random, 420) {
            met.look(&tables);
            met.look(&shuffled(&tables, random));
        }
    });
    assert!(met.in_hand > 500 && met.unsound > 200, "{met:?}");
}

#[test]
fn full_heaps() {
    let mut met = Met::default();
    each_case(83, 0..120, |_, random| {
        if let Some(tables) = heaped(random, ROWS_MAX) {
            met.look(&tables);
            met.look(&shuffled(&tables, random));
        }
    });
    assert!(met.in_hand > 10, "{met:?}");
}

/// Every count of levels, and every row of such a table in hand.
#[test]
fn doubling_records() {
    let mut met = Met::default();
    for levels in (1..200).chain([1_000, 16_000, 16_378]) {
        let mut tables = big::doubling(levels);
        assert_eq!(met.look(&tables).number, 0, "{levels} levels");
        tables.lists.hand -= 1;
        met.look(&tables);
    }
    let mut tables = big::doubling(70);
    for hand in 0..tables.lists.used + 2 {
        tables.lists.hand = hand;
        met.look(&tables);
    }
    assert!(met.in_hand > 200, "{met:?}");
}

/// Two rows exchanged: children may stand behind their parents then.
#[test]
fn rows_in_a_wrong_order() {
    let mut met = Met::default();
    each_case(84, 0..8_000, |_, random| {
        let calls = random.below(12);
        let Some(tables) = Taught::random(random).proposing(random, calls) else {
            return;
        };
        let used = tables.lists.used as usize;
        let mut order: Vec<usize> = (0..used).collect();
        let (one, other) = (random.below(used), random.below(used));
        order.swap(one, other);
        if order[0] == 0 {
            met.look(&renumbered(&tables, &order));
        }
    });
    assert!(met.proposing > 100 && met.unsound > 100, "{met:?}");
}
