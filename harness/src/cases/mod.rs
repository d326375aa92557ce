//! Cases for the calls that `crates/kuldveth` exports, made by library and oracle and compared after every
//! call. The tests run fixed counts of them, `differ` as many as there is time for.

pub mod colliding;
pub mod compare;
pub mod damage;
pub mod deep;
pub mod elsewhere;
pub mod emitted;
pub mod fresh;
pub mod judging;
pub mod lists;
pub mod refusals;
pub mod rubbish;
pub mod shortages;
pub mod shrink;
pub mod verdict;
pub mod view;

use compare::Met;
use oracle::testing::marks::{random_run, Marks};
use oracle::testing::random::Random;
use std::thread;

/// A random case: panics where library and oracle differ.
type Kind = fn(&mut Random, &mut Met);

/// The kinds of random cases, one after the other by case number.
const KINDS: [(&str, Kind); 19] = [
    ("truthful teacher", fresh::truthful_teacher),
    ("contradictory teacher", fresh::contradictory_teacher),
    ("random teacher", fresh::random_teacher),
    ("large automaton", |random, met| {
        let states = random.within(1, 32);
        fresh::large_automaton(random, states, met);
    }),
    ("emitted after every call", emitted::random_run),
    ("rows running out", shortages::random_run),
    ("changed trees", |random, met| {
        (0..40).for_each(|_| elsewhere::changed_trees(random, met));
    }),
    ("shared records in hand", |random, met| {
        (0..10).for_each(|_| elsewhere::shared_records_in_hand(random, met));
    }),
    ("every field damaged", damage::small_run),
    ("every field damaged, a record in hand", damage::small_hand),
    ("several fields damaged", |random, met| {
        (0..40).for_each(|_| damage::damaged_run(random, met));
    }),
    ("deep and full tables", deep::random_calls),
    ("full tables damaged", |random, met| {
        let tables = deep::any_table(random);
        for _ in 0..4 {
            let fields = random.within(1, 3);
            damage::several_fields(tables.clone(), fields, random, met);
        }
    }),
    ("rubbish", |random, met| {
        (0..200).for_each(|_| rubbish::random_calls(random, met));
    }),
    ("lists damaged", lists::random_list),
    ("rows against the index", colliding::random_rows),
    ("lists viewed", view::random_lists),
    ("marks against what was said", |random, met| {
        (0..20).for_each(|_| {
            random_run(random, 80, &mut Marks::default(), |tables, call| {
                judging::call_and_judge(tables, call, met)
            });
        });
    }),
    ("verdicts over trees", |random, met| {
        (0..20).for_each(|_| judging::over_trees(random, met));
    }),
];

/// What sort of case a number stands for.
pub fn kind(case: u64) -> &'static str {
    KINDS[(case % KINDS.len() as u64) as usize].0
}

/// Runs one case of a seed.
pub fn run(seed: u64, case: u64, met: &mut Met) {
    let (_, run) = KINDS[(case % KINDS.len() as u64) as usize];
    run(&mut Random::case(seed, case), met);
}

/// The stack that the deepest tables have to do with.
const STACK: usize = 4 << 20;

/// Does something in a thread of its own, with the name of this one; an error if it panics.
pub fn on_a_small_stack<T: Send + 'static>(
    run: impl FnOnce() -> T + Send + 'static,
) -> thread::Result<T> {
    let name = thread::current().name().unwrap_or("main").to_string();
    let thread = thread::Builder::new().name(name).stack_size(STACK);
    thread.spawn(run).expect("a thread").join()
}
