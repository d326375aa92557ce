//! Runs that come to 32 states and to 256 transitions, and to the refusal of one more.

use harness::cases::compare::Met;
use harness::difference::difference;
use harness::learning::CALLS;
use harness::targets::{one_chain, parity};
use harness::teaching::{proposal, started, truthful};
use oracle::limits::{ROWS_MAX, ROW_WORDS};
use oracle::testing::compare::{Call, Tables};
use oracle::testing::target::Target;

/// Learns to acceptance or to the first refusal; the tables, the number and the call that got it.
fn learn(target: &Target, met: &mut Met) -> (Tables, u8, Call) {
    let mut tables = started(target.counts(), ROWS_MAX);
    for _ in 0..CALLS {
        let call = truthful(target, &tables);
        let seen = met.call(&mut tables, &call);
        if seen.number != 0 || tables.lists.accepted == 1 {
            return (tables, seen.number, call);
        }
    }
    panic!("no end after {CALLS} calls");
}

/// The refused call with every count of rows around those used, and the other mark.
fn around(tables: &Tables, call: &Call, met: &mut Met) -> Vec<u8> {
    let used = tables.lists.used as usize;
    let counts = (used..used + 40).chain([ROWS_MAX]);
    let numbers = counts.map(|rows| {
        let mut tables = tables.clone();
        tables.words.truncate(rows * ROW_WORDS);
        met.try_call(&tables, &Call::Answer(0));
        met.try_call(&tables, &Call::Answer(1));
        met.try_call(&tables, call).number
    });
    numbers.collect()
}

#[test]
fn states_run_out() {
    let mut met = Met::default();
    let (tables, number, _) = learn(&one_chain(31), &mut met);
    let counts = (tables.lists.states, tables.lists.rules);
    assert_eq!((number, counts), (0, (32, 32)));
    let (tables, number, call) = learn(&one_chain(32), &mut met);
    let counts = (tables.lists.states, tables.lists.rules);
    assert_eq!((number, counts), (35, (32, 33)));
    assert!(around(&tables, &call, &mut met)
        .iter()
        .all(|&number| number == 35));
    met.at_least(41, [35]);
}

/// The same with one long record, offered again and again: it is exchanged link by link.
#[test]
fn states_run_out_with_one_record() {
    let (mut met, target) = (Met::default(), one_chain(32));
    let mut chain = vec![1];
    chain.resize(33, 0);
    let offer = Call::Offer(chain, 1);
    let mut tables = started(&[1, 0], ROWS_MAX);
    let mut numbers = (0..CALLS).map(|_| {
        let call = match tables.lists.asked {
            0 => offer.clone(),
            _ => truthful(&target, &tables),
        };
        met.call(&mut tables, &call).number
    });
    let refusal = numbers.find(|&number| number != 0);
    assert_eq!((refusal, tables.lists.states), (Some(35), 32));
}

fn wide() -> Vec<u8> {
    let mut counts = vec![0, 0, 1, 2];
    counts.resize(4 + 31, 3);
    counts
}

#[test]
fn transitions_run_out() {
    let mut met = Met::default();
    let (tables, number, _) = learn(&parity(&wide()), &mut met);
    let counts = (tables.lists.states, tables.lists.rules);
    assert_eq!((number, counts), (0, (2, 256)));
    let target = parity(&[wide(), vec![1]].concat());
    let (tables, number, call) = learn(&target, &mut met);
    let counts = (tables.lists.states, tables.lists.rules);
    assert_eq!((number, counts), (36, (2, 256)));
    let numbers = around(&tables, &call, &mut met);
    assert!(numbers[0] == 34 && numbers.ends_with(&[36]), "{numbers:?}");
    refused_before_the_context(&target, &tables, &mut met);
    met.at_least(5, [34, 36]);
}

/// Where the rows of the record fit and none is left for its context, the transition comes first: 36.
fn refused_before_the_context(target: &Target, tables: &Tables, met: &mut Met) {
    let mut deeper = difference(target, &proposal(tables)).unwrap();
    deeper.extend([2; 3]);
    let numbers = around(tables, &Call::Offer(deeper, 1), met);
    let short = numbers.iter().take_while(|&&number| number == 34).count();
    assert!((3..6).contains(&short), "{numbers:?}");
    assert!(numbers[short..].iter().all(|&number| number == 36));
}
