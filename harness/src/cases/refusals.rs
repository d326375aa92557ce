//! Calls that must be refused, each with its number, at any point of a run.

use super::compare::Met;
use super::emitted::try_rooms;
use crate::teaching::{proposal, written};
use oracle::limits::ROW_WORDS;
use oracle::testing::compare::{Call, Tables};
use oracle::testing::random::Random;

fn offer(symbols: &[u8], mark: u8) -> Call {
    Call::Offer(symbols.to_vec(), mark)
}

/// Every call, with inputs that would be refused later.
fn every_call() -> [Call; 5] {
    let start = Call::Start(vec![9; 70]);
    [
        start,
        offer(&[], 7),
        Call::Answer(7),
        Call::Accept,
        Call::Look,
    ]
}

/// Every refusal that the phase allows.
pub fn try_all(tables: &Tables, random: &mut Random, met: &mut Met) {
    sizes(tables, random, met);
    unsound(tables, random, met);
    for counts in [&[][..], &[0; 65], &[0, 5], &[255], &[4, 4, 0, 6]] {
        met.refused(tables, &Call::Start(counts.to_vec()), 17);
    }
    match (tables.lists.asked, tables.lists.accepted) {
        (0, 0) => proposing(tables, random, met),
        (0, _) => {
            closed(tables, met, &[offer(&[], 7), Call::Answer(2), Call::Accept]);
            for (symbols, number) in faults(tables, random) {
                met.verdict_refused(tables, &symbols, number);
            }
        }
        _ => {
            closed(tables, met, &[offer(&[], 7), Call::Accept]);
            let mark = *random.pick(&[2, 3, 128, 255]);
            met.refused(tables, &Call::Answer(mark), 16);
        }
    }
    try_rooms(tables, met);
}

fn closed(tables: &Tables, met: &mut Met, calls: &[Call]) {
    calls.iter().for_each(|call| met.refused(tables, call, 31));
}

/// 18 comes before all else.
fn sizes(tables: &Tables, random: &mut Random, met: &mut Met) {
    let mut cut = tables.clone();
    let size = cut.words.len();
    let rest = random.within(1, 5);
    cut.words.truncate(*random.pick(&[0, rest, size - rest]));
    every_call()
        .iter()
        .for_each(|call| met.refused(&cut, call, 18));
}

/// 30 comes before all else but 18, and start does not know it.
fn unsound(tables: &Tables, random: &mut Random, met: &mut Met) {
    let mut damaged = tables.clone();
    match random.below(4) {
        0 => damaged.lists.accepted = random.within(2, 255) as u8,
        1 => damaged.lists.contexts = 0,
        2 => damaged.words[0] = 254,
        _ => damaged.lists.used = (damaged.words.len() / ROW_WORDS) as u16 + 1,
    }
    for call in &every_call()[1..] {
        met.refused(&damaged, call, 30);
    }
}

/// Listed records with a fault, and its number: 11, 12, 13 or 14, 15.
fn faults(tables: &Tables, random: &mut Random) -> Vec<(Vec<u8>, u8)> {
    let (letters, counts) = (tables.lists.letters, tables.lists.alphabet());
    let long = *random.pick(&[1_025, 1_026, 5_000]);
    let mut found = vec![(vec![], 11), (vec![letters; long], 12), (vec![letters], 13)];
    if let Some(inner) = counts.iter().position(|&count| count > 0) {
        found.push((vec![inner as u8, letters], 14));
    }
    if let Some(leaf) = counts.iter().position(|&count| count == 0) {
        let leaf = leaf as u8;
        found.push((vec![leaf, 255], 13));
        found.push((vec![leaf, leaf], 15));
        found.push((vec![leaf; 1_024], 15));
    }
    found
}

fn proposing(tables: &Tables, random: &mut Random, met: &mut Met) {
    closed(tables, met, &[Call::Answer(0), Call::Answer(9)]);
    for (symbols, number) in faults(tables, random) {
        met.refused(tables, &offer(&symbols, 9), number);
    }
    let counts = tables.lists.alphabet();
    if let Some(leaf) = counts.iter().position(|&count| count == 0) {
        let leaf = leaf as u8;
        met.refused(tables, &offer(&[leaf], 2), 16);
        let verdict = proposal(tables).accepts(&[leaf]) as u8;
        let number = match answer_of(tables, leaf) {
            0 => 32,
            answer if answer == verdict as u32 + 1 => 32,
            _ => 33,
        };
        met.refused(tables, &offer(&[leaf], verdict), number);
    }
    stored(tables, random, met);
}

/// The stored answer to a record of one symbol; 0 where it has no row.
fn answer_of(tables: &Tables, leaf: u8) -> u32 {
    let rows = tables.words.chunks_exact(ROW_WORDS);
    let mut rows = rows.take(tables.lists.used as usize).skip(1);
    rows.find(|row| row[0] == leaf as u32)
        .map_or(0, |row| row[1])
}

/// 33: a stored record with the opposite of its answer, whatever the proposal says of it.
fn stored(tables: &Tables, random: &mut Random, met: &mut Met) {
    let used = tables.lists.used as usize;
    let row = random.within(1, used.max(2) - 1);
    let answer = tables.words.get(row * ROW_WORDS + 1).copied();
    if row >= used || !matches!(answer, Some(1 | 2)) {
        return;
    }
    let Some(symbols) = written(tables, row as u16) else {
        return;
    };
    let opposite = (answer == Some(1)) as u8;
    met.refused(tables, &offer(&symbols, opposite), 33);
}
