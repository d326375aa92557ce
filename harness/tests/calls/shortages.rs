//! Rows running out at every place of a run.

use harness::cases::compare::Met;
use harness::cases::shortages::{others, random_run, shortages};
use harness::targets::{one_chain, parity};
use harness::teaching::{started, truthful};
use oracle::testing::compare::{Call, Tables};
use oracle::testing::watch::each_case;

#[test]
fn designed_runs() {
    let mut met = Met::default();
    for target in [one_chain(1), one_chain(5), parity(&[0, 0, 1, 2])] {
        shortages(&target, &mut met, |tables| truthful(&target, tables));
    }
    met.at_least(50, [34]);
}

#[test]
fn random_runs() {
    let mut met = Met::default();
    each_case(211, 0..120, |_, random| {
        random_run(random, &mut met);
    });
    met.at_least(5_000, [34]);
    met.judged_at_least(50, (11..=15).chain([31]));
}

/// A chain of 1,023 links and its answers, with rows that end around every call.
#[test]
fn long_chain() {
    let mut met = Met::default();
    let mut chain = vec![1];
    chain.resize(1_024, 0);
    let offer = Call::Offer(chain, 1);
    for rows in [
        1, 2, 1_023, 1_024, 1_025, 1_026, 2_047, 2_048, 2_049, 3_071, 3_072,
    ] {
        let mut tables = started(&[1, 0], rows);
        for turn in 0..8 {
            let asking = tables.lists.asked != 0;
            let call = if asking {
                &Call::Answer((turn == 5) as u8)
            } else {
                &offer
            };
            met.call(&mut tables, call);
            others(&tables, &mut met);
        }
    }
    met.at_least(10, [34]);
}

/// Two leaves learnt, then a chain over a third one offered.
fn chained(rows: usize, length: usize, met: &mut Met) -> (Tables, u8) {
    let mut tables = started(&[1, 0, 0, 0], rows);
    for leaf in [2, 3] {
        met.call(&mut tables, &Call::Offer(vec![leaf], 1));
    }
    let mut chain = vec![1];
    chain.resize(length, 0);
    let seen = met.call(&mut tables, &Call::Offer(chain, 1));
    (tables, seen.number)
}

/// Calls that want about as many rows past the used ones as the library tries them with, and more: 64 on a small table
/// and for a short record, then 256. Answers that add 63 to 519 rows, and offers that add from some 60 to 3,070.
#[test]
fn past_the_first_rows() {
    let mut met = Met::default();
    let due = |rows: usize, wanted: usize| if rows < wanted { 34 } else { 0 };
    for length in [64, 65, 66, 128, 256, 257, 258, 520] {
        let (used, wanted) = (3 * length + 1, 4 * length);
        let ends = [64, 256].map(|tried| [used + tried - 1, used + tried, used + tried + 1]);
        let ends = ends.concat();
        for rows in [&ends[..], &[wanted - 1, wanted, wanted + 1, 16_384]].concat() {
            let (mut tables, _) = chained(rows, length, &mut met);
            assert_eq!(tables.lists.used as usize, used);
            others(&tables, &mut met);
            let seen = met.call(&mut tables, &Call::Answer(1));
            assert_eq!(seen.number, due(rows, wanted));
        }
    }
    for length in [20, 21, 22, 23, 24, 63, 64, 65, 84, 85, 86, 87, 88, 1_024] {
        let wanted = 3 * length + 1;
        for rows in [wanted - 1, wanted, wanted + 1, 16_384] {
            let (tables, number) = chained(rows, length, &mut met);
            assert_eq!(number, due(rows, wanted));
            others(&tables, &mut met);
        }
    }
    met.at_least(10, [34]);
}
