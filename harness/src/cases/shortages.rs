//! Rows running out at every place of a run.

use super::compare::Met;
use crate::targets;
use crate::teaching::{roaming, started, told, truthful};
use oracle::limits::ROW_WORDS;
use oracle::testing::compare::{Call, Tables};
use oracle::testing::random::Random;
use oracle::testing::target::Target;

/// How many calls of a run are tried, taken or not.
const CALLS: usize = 400;

/// The first calls of a run over many rows that are taken, at most 200, and the tables that they leave.
fn calls(target: &Target, mut teacher: impl FnMut(&Tables) -> Call) -> (Vec<Call>, Tables) {
    let mut tables = started(target.counts(), 3_000);
    let (mut made, mut met) = (Vec::new(), Met::default());
    for _ in 0..CALLS {
        if tables.lists.accepted == 1 || made.len() == 200 {
            break;
        }
        let call = teacher(&tables);
        if met.call(&mut tables, &call).number == 0 {
            made.push(call);
        }
    }
    (made, tables)
}

/// The other calls that the phase allows, and some that it does not; verdicts.
pub fn others(tables: &Tables, met: &mut Met) {
    let calls = [Call::Answer(0), Call::Answer(1), Call::Answer(2)];
    calls.iter().for_each(|call| _ = met.try_call(tables, call));
    met.try_call(tables, &Call::Accept);
    met.try_call(tables, &Call::Look);
    met.verdicts(tables);
}

/// The run with every count of rows up to what it needs: it stops with 34 and no other number.
fn every_count(target: &Target, made: &[Call], whole: &Tables, met: &mut Met) {
    let needed = whole.lists.used as usize;
    for rows in 1..=needed {
        let mut tables = started(target.counts(), rows);
        let taken = made.iter().take_while(|call| {
            let number = met.call(&mut tables, call).number;
            assert!(matches!(number, 0 | 34), "{rows} rows of {needed}");
            number == 0
        });
        assert_eq!(taken.count() == made.len(), rows == needed);
        others(&tables, met);
        if rows == needed {
            assert_eq!(tables.lists, whole.lists);
            assert_eq!(tables.words, whole.words[..rows * ROW_WORDS]);
        }
    }
}

/// The run with one row lent more whenever they run out, up to the rows that it used.
fn row_by_row(target: &Target, made: &[Call], whole: &Tables, met: &mut Met) {
    let mut tables = started(target.counts(), 1);
    for call in made {
        while met.call(&mut tables, call).number == 34 {
            assert!(tables.words.len() < whole.words.len(), "rows run out again");
            others(&tables, met);
            tables.words.extend([9; ROW_WORDS]);
        }
    }
    assert_eq!(tables.lists, whole.lists);
    assert_eq!(tables.words, whole.words[..tables.words.len()]);
}

/// A run of the target, with one row lent more whenever they run out, and with too few of them.
pub fn shortages(target: &Target, met: &mut Met, teacher: impl FnMut(&Tables) -> Call) {
    let (made, whole) = calls(target, teacher);
    row_by_row(target, &made, &whole, met);
    if whole.lists.used < 250 {
        every_count(target, &made, &whole, met);
    }
}

/// A random target under a teacher that is right, roams, or contradicts itself.
pub fn random_run(random: &mut Random, met: &mut Met) {
    let states = random.within(1, 6);
    let target = targets::random(random, states, 4, 3 * states);
    match random.below(3) {
        0 => shortages(&target, met, |tables| truthful(&target, tables)),
        1 => shortages(&target, met, |tables| roaming(&target, tables, random)),
        _ => shortages(&target, met, |tables| told(&target, tables, random, 80)),
    }
}
