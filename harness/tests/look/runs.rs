//! Fresh runs of all sorts of teachers: both look after every call.

use crate::compare::{look, Met};
use harness::teacher::Taught;
use oracle::limits::ROW_WORDS;
use oracle::testing::big;
use oracle::testing::compare::Tables;
use oracle::testing::random::Random;
use oracle::testing::target::Target;
use oracle::testing::watch::each_case;

/// Runs until nothing is left to call or so many calls are made.
fn follow(mut run: Taught, random: &mut Random, calls: usize, met: &mut Met) {
    for _ in 0..calls {
        assert_eq!(met.look(&run.tables).number, 0, "a fresh run is sound");
        if !run.step(random) {
            break;
        }
    }
    assert_eq!(met.look(&run.tables).number, 0);
}

#[test]
fn random_targets() {
    let mut met = Met::default();
    each_case(61, 0..4_000, |_, random| {
        follow(Taught::random(random), random, 120, &mut met);
    });
    met.at_least(100, 0);
}

/// Larger automata, learnt truthfully over all rows there may be.
#[test]
fn larger_targets() {
    let mut met = Met::default();
    each_case(62, 0..24, |_, random| {
        let target = Target::sized(random, 12);
        follow(Taught::start(target, 100, 16_384), random, 300, &mut met);
    });
}

/// Whether every row with a hole is a member of C or below one.
fn none_beside(tables: &Tables) -> bool {
    let lists = &tables.lists;
    let row = |at: usize| &tables.words[at * ROW_WORDS..][..ROW_WORDS];
    let used = lists.used as usize;
    let mut holed = vec![true; used];
    for at in 1..used {
        let count = lists.counts[row(at)[0] as usize] as usize;
        holed[at] = row(at)[2..][..count]
            .iter()
            .any(|&child| holed[child as usize]);
    }
    let mut needed = vec![false; used];
    let members = lists.contexts().iter();
    members.for_each(|&context| needed[context as usize] = true);
    for at in (1..used).rev().filter(|&at| holed[at]) {
        let count = lists.counts[row(at)[0] as usize] as usize;
        for &child in &row(at)[2..][..count] {
            needed[child as usize] |= needed[at];
        }
    }
    (0..used).all(|at| needed[at] || !holed[at])
}

/// No run leaves the tables that docs/BENCHMARKS.md calls slow for contexts beside C.
#[test]
fn no_contexts_beside_c() {
    each_case(64, 0..1_000, |_, random| {
        let mut run = Taught::random(random);
        for _ in 0..60 {
            run.step(random);
            assert!(none_beside(&run.tables), "{:?}", run.tables);
        }
    });
    assert!(!none_beside(&big::beside()));
}

/// Tables before a start: full of zeros, and of what a host left there.
#[test]
fn before_the_start() {
    for word in [0, 1, 255, u32::MAX] {
        let mut tables = Taught::random(&mut Random::new(63)).tables;
        tables.words.fill(word);
        assert_eq!(look(&tables).number, 30);
        tables.lists = oracle::Lists::zeroed();
        assert_eq!(look(&tables).number, 30);
    }
}
