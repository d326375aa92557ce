//! Tables from elsewhere, sound or nearly so: every call on them, and a run that goes on from them.

use harness::cases::compare::Met;
use harness::cases::elsewhere;
use oracle::testing::watch::each_case;

#[test]
fn changed_trees() {
    let mut met = Met::default();
    each_case(221, 0..24_000, |_, random| {
        elsewhere::changed_trees(random, &mut met);
    });
    met.at_least(300, [30, 31, 32, 33, 34]);
    met.judged_at_least(300, (11..=15).chain([18, 30, 31]));
    assert!(met.moved > 2_000 && met.overfull > 100, "{met}");
}

#[test]
fn shared_records_in_hand() {
    let mut met = Met::default();
    each_case(222, 0..4_000, |_, random| {
        elsewhere::shared_records_in_hand(random, &mut met);
    });
    assert!(met.moved > 2_000, "{met}");
}
