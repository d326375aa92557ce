//! Runs that reach the last state and the last transition, and rows running out at
//! every place of a run.

use oracle::testing::checked::{learn, Checked};
use oracle::testing::compare::{agree, Call, Tables};
use oracle::testing::target::{smallest_difference, Target};
use oracle::testing::watch::each_case;
use oracle::{Automaton, Rule, Seen};

/// The language of the one chain with so many links, which has one state more.
pub fn one_chain(links: u8) -> Target {
    let mut rules: Vec<(u8, Vec<u8>, u8)> = vec![(1, vec![], 0)];
    rules.extend((0..links).map(|state| (0, vec![state], state + 1)));
    let borrowed: Vec<(u8, &[u8], u8)> = rules
        .iter()
        .map(|(symbol, children, target)| (*symbol, &children[..], *target))
        .collect();
    let finals: Vec<u8> = (0..=links).map(|state| (state == links) as u8).collect();
    Target::of(&[1, 0], &finals, &borrowed)
}

/// Parity of the leaves q: every symbol sums the states of its children, q adds one.
fn parity(counts: &[u8], q: usize) -> Target {
    let mut rules = Vec::new();
    for (symbol, &count) in counts.iter().enumerate() {
        for tuple in 0..1u32 << count {
            let children: Vec<u8> = (0..count).map(|place| (tuple >> place & 1) as u8).collect();
            let sum = tuple.count_ones() + (symbol == q) as u32;
            rules.push(Rule {
                symbol: symbol as u8,
                children,
                target: (sum % 2) as u8,
            });
        }
    }
    Target::new(Automaton {
        counts: counts.to_vec(),
        finals: vec![true, false],
        rules,
    })
}

/// The naive learner says the same of the calls that follow.
fn both_agree(run: &Checked, record: &[u8], refusal: u8) {
    let tables = Tables {
        words: run.words.clone(),
        lists: run.lists.clone(),
    };
    let calls = [
        Call::Look,
        Call::Answer(0),
        Call::Answer(1),
        Call::Emit(4_000),
        Call::Offer(record.to_vec(), 1),
    ];
    let seen = calls.map(|call| agree(&mut tables.clone(), &call).number);
    assert!(seen.contains(&refusal), "{seen:?}");
}

#[test]
fn states_run_out() {
    let target = one_chain(31);
    let (run, seen) = learn(&target, 16_384);
    assert_eq!(
        (seen.number, run.lists.states, run.lists.rules),
        (0, 32, 32)
    );
    let target = one_chain(32);
    let (run, seen) = learn(&target, 16_384);
    assert_eq!(seen.number, 35, "a 33rd state");
    assert_eq!((run.lists.states, run.lists.rules), (32, 33));
    both_agree(&run, &[1], 35);
}

#[test]
fn states_run_out_with_one_record() {
    let target = one_chain(32);
    let mut run = Checked::start(&[1, 0], 16_384, Some(&target));
    let mut chain = vec![1];
    chain.resize(33, 0);
    let mut last = Seen::default();
    for _ in 0..33 {
        last = run.offer(&chain, 1);
        last = run.answer_all(&target, last);
        if last.number != 0 {
            break;
        }
    }
    assert_eq!((last.number, run.lists.states), (35, 32));
}

#[test]
fn transitions_run_out() {
    let mut counts = vec![0, 0, 1, 2];
    counts.resize(4 + 31, 3);
    let target = parity(&counts, 1);
    assert_eq!(target.automaton.rules.len(), 256);
    let (run, seen) = learn(&target, 16_384);
    assert_eq!(
        (seen.number, run.lists.states, run.lists.rules),
        (0, 2, 256)
    );
    counts.push(1);
    let target = parity(&counts, 1);
    assert_eq!(target.automaton.rules.len(), 258);
    let (run, seen) = learn(&target, 16_384);
    assert_eq!(seen.number, 36, "a 257th transition");
    assert_eq!((run.lists.states, run.lists.rules), (2, 256));
    let record = smallest_difference(&target, &run.hypothesis()).unwrap();
    both_agree(&run, &record, 36);
}

/// With every count of rows up to what a run needs, it stops with 34 and nothing else;
/// with all of them it ends as it does with many.
fn shortages(target: &Target) {
    let (whole, seen) = learn(target, 4_000);
    assert_eq!(seen.number, 0);
    let needed = whole.lists.used as usize;
    for rows in 1..needed {
        let (run, seen) = learn(target, rows);
        assert_eq!(seen.number, 34, "{rows} rows of {needed}");
        assert!(run.lists.used as usize <= rows);
    }
    let (run, seen) = learn(target, needed);
    assert_eq!((seen.number, run.lists.accepted), (0, 1));
    assert_eq!(run.lists, whole.lists);
    assert_eq!(run.words[..], whole.words[..run.words.len()]);
}

#[test]
fn rows_run_out_at_every_place() {
    shortages(&one_chain(1));
    shortages(&one_chain(5));
    shortages(&parity(&[0, 0, 1, 2], 1));
    shortages(&parity(&[0, 1, 0, 3], 2));
    each_case(51, 0..60, |_, random| {
        shortages(&Target::random(random));
    });
}
