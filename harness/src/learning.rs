//! Whole learning runs, for the benchmarks.

use crate::calls::oracle_call;
use crate::targets;
use crate::teaching::{started, truthful};
use oracle::limits::ROWS_MAX;
use oracle::testing::compare::{Call, Tables};
use oracle::testing::random::Random;

/// More calls than a run can have: each taken one but the last answers a row or adds to S and T.
pub const CALLS: usize = 2 * ROWS_MAX;
/// The seeds that are tried.
const SEEDS: u64 = 200;

/// The calls of a truthful run to its acceptance, over as many rows as the host lends.
fn to_acceptance(seed: u64, states: usize, rows: usize) -> Option<(Tables, Vec<Call>, Tables)> {
    let random = &mut Random::new(seed);
    let target = targets::random(random, states, 6, 4 * states);
    let begin = started(target.counts(), rows);
    let (mut tables, mut made) = (begin.clone(), Vec::new());
    for _ in 0..CALLS {
        let next = truthful(&target, &tables);
        let seen = oracle_call(&mut tables.words, &mut tables.lists, &next);
        if seen.number != 0 {
            return None;
        }
        made.push(next);
        if tables.lists.accepted == 1 {
            return Some((begin, made, tables));
        }
    }
    None
}

/// The runs that learn so many states, by seeds in order: their tables, their calls, and what they leave.
pub fn runs(states: usize, rows: usize) -> impl Iterator<Item = (Tables, Vec<Call>, Tables)> {
    (1..=SEEDS)
        .filter_map(move |seed| to_acceptance(seed, states, rows))
        .filter(move |run| run.2.lists.states as usize == states)
}

/// The first of them.
pub fn learning(states: usize, rows: usize) -> (Tables, Vec<Call>, Tables) {
    runs(states, rows).next().expect("some seed has one")
}
