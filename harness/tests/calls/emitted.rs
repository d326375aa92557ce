//! Emitting and loading: every proposal of random runs written by both, with too little room, just enough and more; read again.

use harness::cases::compare::{Met, LIST_MAX};
use harness::cases::emitted;
use oracle::testing::compare::Tables;
use oracle::testing::watch::each_case;
use oracle::Lists;

#[test]
fn every_proposal_of_random_runs() {
    let mut met = Met::default();
    each_case(401, 0..120, |_, random| {
        emitted::random_run(random, &mut met);
    });
    met.listed_at_least(1_000, [0, 20, 31]);
    met.judged_at_least(100, [31]);
}

#[test]
fn strange_sizes() {
    let mut met = Met::default();
    for length in [0, 5, 6, 98_304, 98_310] {
        let tables = Tables {
            words: vec![0; length],
            lists: Lists::zeroed(),
        };
        let fits = length == 6 || length == 98_304;
        let number = met.emit(&tables, LIST_MAX).0.number;
        assert_eq!(number, if fits { 30 } else { 18 });
    }
}
