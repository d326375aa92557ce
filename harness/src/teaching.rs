//! What a teacher says next: the call that fits the phase, with the target's answers or others.

use crate::difference::difference;
use oracle::limits::{RECORD_MAX, ROW_WORDS};
use oracle::testing::compare::{Call, Tables};
use oracle::testing::random::Random;
use oracle::testing::reading;
use oracle::testing::target::Target;
use oracle::Lists;

/// Tables that were lent to a start, full of rubbish before.
pub fn started(counts: &[u8], rows: usize) -> Tables {
    let mut tables = Tables {
        words: vec![9; rows * ROW_WORDS],
        lists: Lists::zeroed(),
    };
    let seen = oracle::start(&mut tables.words, &mut tables.lists, counts);
    assert_eq!(seen.number, 0);
    tables
}

/// The proposed automaton, through its list.
pub fn proposal(tables: &Tables) -> Target {
    reading::proposal(&tables.words, &tables.lists)
}

/// The target's verdict on a row.
pub fn truth(target: &Target, tables: &Tables, row: u16) -> bool {
    let states = target.row_states(&tables.words, row as usize + 1, None);
    target.is_final(states[row as usize])
}

/// The symbols of a row without a hole, children before parent, if they are few enough to be offered.
pub fn written(tables: &Tables, row: u16) -> Option<Vec<u8>> {
    reading::symbols(&tables.words, &tables.lists, row)
}

/// The next call of a truthful run with small counterexamples; acceptance at its end. A
/// counterexample that is too long to be offered ends it as well.
pub fn truthful(target: &Target, tables: &Tables) -> Call {
    if tables.lists.asked != 0 {
        return Call::Answer(truth(target, tables, tables.lists.asked) as u8);
    }
    match difference(target, &proposal(tables)) {
        Some(record) if record.len() <= RECORD_MAX => {
            let mark = target.accepts(&record) as u8;
            Call::Offer(record, mark)
        }
        _ => Call::Accept,
    }
}

/// The same with counterexamples of any size, if a few attempts find one.
pub fn roaming(target: &Target, tables: &Tables, random: &mut Random) -> Call {
    if tables.lists.asked != 0 {
        return truthful(target, tables);
    }
    let proposed = proposal(tables);
    let size = *random.pick(&[10, 60, 400]);
    let mut tried = (0..12).map(|_| Target::random_record(target.counts(), random, size));
    match tried.find(|record| target.accepts(record) != proposed.accepts(record)) {
        Some(record) => Call::Offer(record.clone(), target.accepts(&record) as u8),
        None => truthful(target, tables),
    }
}

/// Any record, marked with what the proposal does not say of it.
fn any_offer(target: &Target, tables: &Tables, random: &mut Random) -> Call {
    let record = Target::random_record(target.counts(), random, 20);
    let mark = !proposal(tables).accepts(&record) as u8;
    Call::Offer(record, mark)
}

/// The next call when only so many answers and offers out of a hundred are the target's.
pub fn told(target: &Target, tables: &Tables, random: &mut Random, honest: usize) -> Call {
    let right = random.percent(honest);
    if tables.lists.asked == 0 && (!right || random.percent(50)) {
        return any_offer(target, tables, random);
    }
    match roaming(target, tables, random) {
        Call::Answer(mark) if !right => Call::Answer(1 - mark),
        Call::Accept if random.percent(90) => any_offer(target, tables, random),
        call => call,
    }
}
