//! The deepest and fullest tables, on a stack of 4 MB.

use harness::cases;
use harness::cases::compare::Met;
use oracle::limits::ROW_WORDS;
use oracle::testing::big;
use oracle::testing::compare::{Call, Tables};

/// Makes calls one after the other on tables, in a thread of its own, and asks for verdicts on what they leave.
fn on_a_small_stack(mut tables: Tables, calls: Vec<Call>) -> (Tables, Vec<u8>) {
    let run = move || {
        let mut met = Met::default();
        let calls = calls.iter();
        let numbers = calls.map(|call| met.call(&mut tables, call).number);
        let numbers = numbers.collect();
        met.verdicts(&tables);
        (tables, numbers)
    };
    cases::on_a_small_stack(run).unwrap()
}

/// The chain in hand is exchanged link by link; one context then tells o[p] from p.
#[test]
fn chains_in_hand() {
    for links in [2, 3, 1_026, 8_000, 16_000, 16_380] {
        for mark in [0, 1] {
            let calls = vec![Call::Answer(2), Call::Answer(mark), Call::Answer(0)];
            let (tables, numbers) = on_a_small_stack(big::exchanges(links), calls);
            assert_eq!(numbers[..2], [16, 0]);
            assert_eq!(tables.lists.hand, 0);
        }
    }
}

/// The same where no row is left for the context.
#[test]
fn chain_in_hand_without_room() {
    let mut tables = big::exchanges(16_000);
    let used = tables.lists.used as usize;
    tables.words.truncate(used * ROW_WORDS);
    let (_, numbers) = on_a_small_stack(tables, vec![Call::Answer(0), Call::Answer(1)]);
    assert_eq!(numbers, [34, 34]);
}

/// Chains of contexts filled to the last row, and one row too deep.
#[test]
fn deep_contexts() {
    let long = |links: usize| {
        let mut chain = vec![1];
        chain.resize(links + 1, 0);
        chain
    };
    for depth in [1, 1_025, 8_000, 8_189] {
        let calls = vec![
            Call::Offer(long(1_023), 0),
            Call::Answer(0),
            Call::Answer(1),
            Call::Offer(vec![1], 0),
            Call::Accept,
            Call::Accept,
        ];
        on_a_small_stack(big::deep_context(depth), calls);
    }
}

/// Every sort of full table, with what its phase allows and what it does not.
#[test]
fn full_tables() {
    let all = [
        big::full(8_000, 0),
        big::full(7_700, 7_800),
        big::full(7_700, 7_699),
        big::widest(8_000, 0),
        big::widest(7_700, 7_800),
        big::proposing(71),
        big::proposing(40),
        big::spine(big::SPINE_MAX),
        big::spine(8_000),
        big::spine(4_000),
        big::beside(),
    ];
    let mut long = vec![0];
    long.resize(1_022, 1);
    long.extend([1, 1]);
    for tables in all {
        for mark in [0, 1] {
            let mut calls = vec![
                Call::Offer(long.clone(), mark),
                Call::Offer(vec![0, 2], mark),
            ];
            calls.extend([0, 1, 1, 0].map(Call::Answer));
            calls.extend([Call::Accept, Call::Offer(long.clone(), 1 - mark)]);
            calls.extend([mark; 6].map(Call::Answer));
            on_a_small_stack(tables.clone(), calls);
        }
    }
}

/// Records in hand that unfold without end: each exchange asks about one leaf fewer.
#[test]
fn doubling_records() {
    for levels in [1, 2, 5, 60, 8_000, 8_188, 8_189, 16_378] {
        let mut calls = vec![Call::Answer(1)];
        calls.extend([0; 60].map(Call::Answer));
        calls.extend([1, 0, 1].map(Call::Answer));
        let rows = if levels > 100 { 12 } else { calls.len() };
        calls.truncate(rows);
        on_a_small_stack(big::doubling(levels), calls);
    }
}
