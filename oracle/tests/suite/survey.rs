//! The languages of the survey's Examples 2.1, 2.2 and 2.3, learnt with smallest
//! counterexamples.

use oracle::testing::checked::learn;
use oracle::testing::target::Target;

fn learnt(target: &Target, states: u16, rules: u16) {
    let (run, seen) = learn(target, 1_000);
    assert_eq!((seen.number, seen.states, seen.rules), (0, states, rules));
    assert!(run.taken < states as usize + rules as usize);
    println!("{} records, {} questions", run.taken, run.questions);
}

/// Symbols f, g, a; no node has a child with its own symbol; states by root symbol.
#[test]
fn example_2_1() {
    let (a, g, f) = (0, 1, 2);
    let target = Target::of(
        &[2, 1, 0],
        &[1, 1, 1],
        &[
            (2, &[], a),
            (1, &[a], g),
            (1, &[f], g),
            (0, &[a, a], f),
            (0, &[a, g], f),
            (0, &[g, a], f),
            (0, &[g, g], f),
        ],
    );
    learnt(&target, 3, 7);
}

/// Symbols f, g, a; links g over f whose first child is a chain of g and second an a.
#[test]
fn example_2_2() {
    let target = Target::of(
        &[2, 1, 0],
        &[0, 0, 1],
        &[
            (2, &[], 0),
            (1, &[0], 1),
            (1, &[1], 1),
            (0, &[0, 0], 2),
            (0, &[1, 0], 2),
            (1, &[2], 2),
        ],
    );
    learnt(&target, 3, 6);
}

/// Symbols f, a, b; more than one node and some leaf b.
#[test]
fn example_2_3() {
    let (a, b, f) = (0, 1, 2);
    let target = Target::of(
        &[2, 0, 0],
        &[0, 0, 1],
        &[
            (1, &[], a),
            (2, &[], b),
            (0, &[a, a], a),
            (0, &[a, b], f),
            (0, &[a, f], f),
            (0, &[b, a], f),
            (0, &[b, b], f),
            (0, &[b, f], f),
            (0, &[f, a], f),
            (0, &[f, b], f),
            (0, &[f, f], f),
        ],
    );
    learnt(&target, 3, 11);
}
