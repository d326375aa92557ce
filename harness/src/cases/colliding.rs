//! Rows made against the index, lent and added.

use super::compare::Met;
use super::deep::any_table;
use crate::aimed::{Aim, Nodes};
use crate::crowded::Crowded;
use crate::index_model::{self, ROOMS};
use crate::teaching::{proposal, written};
use oracle::limits::{RECORD_MAX, ROWS_MAX, ROW_WORDS};
use oracle::testing::compare::{Call, Tables};
use oracle::testing::random::Random;
use oracle::Lists;
use std::collections::HashSet;

const LEAVES: u8 = 48;
/// Symbols of four children follow the leaves, and then one of two.
const PAIR: u8 = 63;

/// Rows 1 to 48 are leaves, nothing is learnt, and all other rows are free.
fn leaves() -> Tables {
    let mut lists = Lists::zeroed();
    lists.letters = PAIR + 1;
    lists.counts[LEAVES as usize..PAIR as usize].fill(4);
    lists.counts[PAIR as usize] = 2;
    (lists.used, lists.contexts) = (LEAVES as u16 + 1, 1);
    let mut words = vec![255, 0, 0, 0, 0, 0];
    (0..LEAVES as u32).for_each(|symbol| words.extend([symbol, 0, 0, 0, 0, 0]));
    words.resize(ROWS_MAX * ROW_WORDS, 9);
    Tables { words, lists }
}

/// A record of up to 150 nodes, paired from the left.
fn record(tables: &Tables, nodes: &mut Nodes) -> Vec<u8> {
    let mut symbols = Vec::new();
    for _ in 0..150 {
        let Some((symbol, places)) = nodes.draw() else {
            break;
        };
        let children = places.map(|place| written(tables, place as u16).unwrap_or_default());
        let mut more = children.concat();
        more.push(symbol as u8);
        if !symbols.is_empty() {
            more.push(PAIR);
        }
        if symbols.len() + more.len() > RECORD_MAX {
            break;
        }
        symbols.extend(more);
    }
    symbols
}

/// Nodes over leaves in rows from a first one on can be children.
fn allow_from(first: u16, tables: &Tables, nodes: &mut Nodes) {
    let rows = (1..).zip(index_model::nodes(&tables.words, tables.lists.used));
    let over_leaves = |places: &[u32; 4]| places.iter().all(|place| (1..=48).contains(place));
    for (row, (_, places)) in rows.skip(first as usize - 1) {
        if over_leaves(&places) {
            nodes.allow(row);
        }
    }
}

/// Offers of new nodes, aimed at an index that has room for `room` rows, and random answers; the tables left. No row is asked
/// twice, so there are fewer than 12,000 answers.
pub fn added(aim: Aim, room: usize, random: &mut Random, met: &mut Met) -> Tables {
    let mut tables = leaves();
    let symbols = LEAVES as u32..PAIR as u32;
    let mut nodes = Nodes::new(aim, 600, room, symbols, HashSet::new());
    (1..=LEAVES as u32).for_each(|leaf| nodes.allow(leaf));
    for _ in 0..6 {
        let used = tables.lists.used;
        let record = record(&tables, &mut nodes);
        let mark = !proposal(&tables).accepts(&record) as u8;
        met.call(&mut tables, &Call::Offer(record, mark));
        while tables.lists.asked != 0 && tables.lists.used < 12_000 {
            let mark = random.percent(80) as u8;
            if met.call(&mut tables, &Call::Answer(mark)).number != 0 {
                return tables;
            }
        }
        if tables.lists.asked != 0 {
            break;
        }
        met.verdicts(&tables);
        allow_from(used, &tables, &mut nodes);
    }
    tables
}

/// Tables with records beside what was learnt. Each round adds a number of them, and then makes calls that add a context or a
/// transition.
pub fn lent(tables: Tables, rows: usize, rounds: &[(Aim, usize)], met: &mut Met) {
    let mut crowded = Crowded::over(tables, 4, rows);
    for &(aim, rows) in rounds {
        crowded.add(aim, rows);
        let tables = &crowded.strange.tables;
        let letters = tables.lists.letters;
        let leaf = tables.lists.counts.iter().position(|&count| count == 0);
        let leaf = leaf.unwrap_or(0) as u8;
        let node = vec![leaf, leaf, leaf, leaf, letters - 1];
        let mut tables = tables.clone();
        for call in [0, 1].map(|mark| Call::Offer(node.clone(), mark)) {
            met.call(&mut tables, &call);
        }
        for call in [1, 0, 0, 1].map(Call::Answer) {
            met.call(&mut tables, &call);
            met.verdicts(&tables);
        }
    }
}

/// Against one bucket, or against the trees of some.
fn any_aim(random: &mut Random) -> Aim {
    *random.pick(&[Aim::OneBucket, Aim::Trees(1), Aim::Trees(4), Aim::Trees(32)])
}

/// Rows added by offers, or lent beside a full-size table with room.
pub fn random_rows(random: &mut Random, met: &mut Met) {
    let aim = any_aim(random);
    if random.percent(20) {
        let room = *random.pick(&ROOMS);
        added(aim, room, random, met);
        return;
    }
    let roomy = |tables: &Tables| tables.lists.used < 12_000 && tables.lists.letters < 64;
    let found = (0..20).map(|_| any_table(random)).find(roomy);
    if let Some(tables) = found {
        let rounds = [(aim, 900), (any_aim(random), 500), (Aim::Scattered, 66)];
        lent(tables, ROWS_MAX, &rounds[..random.within(1, 3)], met);
    }
}
