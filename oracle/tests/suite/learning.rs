//! Random automata learnt to acceptance, and teachers that contradict themselves.

use oracle::testing::checked::{contradict, learn_random};
use oracle::testing::watch::each_case;

#[test]
fn random_automata() {
    // Small automata first, so that the first failure is a small one.
    let mut again = 0;
    each_case(11, 0..4_000, |case, random| {
        again += usize::from(learn_random(random, 1 + case as usize / 800));
    });
    println!("{again} learnt in a second run, after rows ran out");
    assert!(again < 400, "{again} runs ran out of rows");
}

#[test]
fn contradictory_teachers() {
    let mut answered = 0;
    each_case(12, 0..10_000, |_, random| answered += contradict(random));
    println!("{answered} questions answered after a shortage");
    assert!(
        answered > 10,
        "{answered} questions answered after a shortage"
    );
}
