//! Sound tables with one field damaged, every field in turn.

use crate::compare::Met;
use harness::cases::damage::{after_some_calls, in_hand};
use oracle::limits::ROW_WORDS;
use oracle::testing::big;
use oracle::testing::compare::Tables;
use oracle::testing::watch::each_case;

/// Looks with one field set to each of some values, and puts it back.
fn each<T: Copy + PartialEq>(
    tables: &mut Tables,
    values: &[T],
    field: impl Fn(&mut Tables) -> &mut T,
    met: &mut Met,
) {
    let old = *field(tables);
    for &value in values {
        if value != old {
            *field(tables) = value;
            met.look(tables);
        }
    }
    *field(tables) = old;
}

/// Values for a number that may name a row.
fn values(old: u32, used: u32) -> [u32; 9] {
    let next = old.wrapping_add(1);
    [
        0,
        1,
        2,
        255,
        next,
        old.wrapping_sub(1),
        used - 1,
        used,
        u32::MAX,
    ]
}

fn every_word(tables: &mut Tables, met: &mut Met) {
    let used = tables.lists.used as u32;
    let end = tables.words.len().min((used as usize + 3) * ROW_WORDS);
    for at in 0..end {
        let values = values(tables.words[at], used);
        each(tables, &values, |tables| &mut tables.words[at], met);
    }
}

/// Every entry of an array of rows: many values within its end, two past it.
fn every_entry(
    tables: &mut Tables,
    size: usize,
    end: usize,
    array: impl Fn(&mut Tables) -> &mut [u16],
    met: &mut Met,
) {
    let used = tables.lists.used as u32;
    for at in 0..size {
        let old = array(tables)[at];
        let values = values(old as u32, used).map(|value| value as u16);
        let values = if at <= end { &values[..] } else { &values[7..] };
        each(tables, values, |tables| &mut array(tables)[at], met);
    }
}

fn every_list(tables: &mut Tables, met: &mut Met) {
    let (states, rules) = (tables.lists.states as usize, tables.lists.rules as usize);
    let contexts = tables.lists.contexts as usize;
    every_entry(tables, 32, states, |tables| &mut tables.lists.s, met);
    every_entry(tables, 256, rules, |tables| &mut tables.lists.t, met);
    every_entry(tables, 289, contexts, |tables| &mut tables.lists.c, met);
    for at in 0..64 {
        let values = [0, 1, 2, 3, 4, 5, 255];
        each(tables, &values, |tables| &mut tables.lists.counts[at], met);
    }
}

fn every_number(tables: &mut Tables, met: &mut Met) {
    let bytes: Vec<u8> = (0..=66).chain([127, 128, 254, 255]).collect();
    each(tables, &bytes, |tables| &mut tables.lists.letters, met);
    each(tables, &bytes, |tables| &mut tables.lists.accepted, met);
    let used = tables.lists.used;
    let edges = [255, 256, 257, 288, 289, 290, 16_383, 16_384, 16_385, 65_535];
    let states: Vec<u16> = (0..=66).chain(edges).collect();
    each(tables, &states, |tables| &mut tables.lists.states, met);
    let numbers: Vec<u16> = (0..used + 4).chain(edges).collect();
    each(tables, &numbers, |tables| &mut tables.lists.used, met);
    each(tables, &numbers, |tables| &mut tables.lists.rules, met);
    each(tables, &numbers, |tables| &mut tables.lists.contexts, met);
    each(tables, &numbers, |tables| &mut tables.lists.hand, met);
    each(tables, &numbers, |tables| &mut tables.lists.asked, met);
}

fn every_field(mut tables: Tables, met: &mut Met) {
    let before = tables.clone();
    assert_eq!(met.look(&tables).number, 0);
    every_word(&mut tables, met);
    every_list(&mut tables, met);
    every_number(&mut tables, met);
    assert!(tables == before);
}

/// Twenty tables of each sort.
#[test]
fn fresh_tables() {
    let mut met = Met::default();
    let mut left = [20; 4];
    each_case(71, 0..4_000, |_, random| {
        let (sort, tables) = after_some_calls(random);
        if left[sort] > 0 && tables.lists.rules > 0 && tables.lists.used < 90 {
            left[sort] -= 1;
            every_field(tables, &mut met);
        }
    });
    assert_eq!(left, [0; 4]);
    met.at_least(1_000, 10_000);
}

#[test]
fn tables_with_a_record_in_hand() {
    let (mut met, mut left) = (Met::default(), 40);
    each_case(72, 0..4_000, |_, random| {
        let found = in_hand(random).filter(|tables| left > 0 && tables.lists.used < 60);
        if let Some(tables) = found {
            left -= 1;
            every_field(tables, &mut met);
        }
    });
    assert!(met.in_hand > 4_000 && met.unsound > 5_000, "{met:?}");
}

/// Every entry and count of lists that are full.
#[test]
fn full_lists() {
    let mut met = Met::default();
    let mut tables = big::widest(600, 15_000);
    tables
        .words
        .truncate((tables.lists.used as usize + 1) * ROW_WORDS);
    assert_eq!(met.look(&tables).number, 0);
    every_list(&mut tables, &mut met);
    assert!(met.asking > 500 && met.unsound > 2_000, "{met:?}");
}
