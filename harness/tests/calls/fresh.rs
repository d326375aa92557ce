//! Fresh runs under teachers of all sorts, refused calls in between.

use harness::cases::compare::Met;
use harness::cases::fresh;
use oracle::testing::watch::each_case;

#[test]
fn truthful_teachers() {
    let mut met = Met::default();
    each_case(201, 0..1_200, |_, random| {
        fresh::truthful_teacher(random, &mut met);
    });
    assert!(met.accepted > 1_000 && met.in_hand > 100, "{met}");
    met.at_least(20, (11..=18).chain(30..=33));
    met.judged_at_least(500, (11..=15).chain([18, 30, 31]));
}

/// Automata of up to 32 states over all rows there may be, to their acceptance.
#[test]
fn large_automata() {
    let mut met = Met::default();
    each_case(202, 0..32, |case, random| {
        fresh::large_automaton(random, case as usize + 1, &mut met);
    });
}

#[test]
fn contradictory_teachers() {
    let mut met = Met::default();
    each_case(203, 0..1_200, |_, random| {
        fresh::contradictory_teacher(random, &mut met);
    });
    met.at_least(50, (11..=18).chain(30..=34));
    met.judged_at_least(500, (11..=15).chain([18, 30, 31]));
    assert!(met.in_hand > 1_000 && met.moved > 500, "{met}");
}

#[test]
fn random_teachers() {
    let mut met = Met::default();
    each_case(204, 0..1_200, |_, random| {
        fresh::random_teacher(random, &mut met);
    });
    met.at_least(50, [0, 11, 13, 14, 15, 16, 31, 32, 33]);
    met.judged_at_least(50, (11..=15).chain([31]));
}
