//! Sizes at and past every end: of the words, the used rows, and the lists.

use crate::compare::look;
use oracle::testing::compare::Tables;
use oracle::testing::random::Random;
use oracle::Lists;

/// Lists as a start leaves them, over the alphabet of one leaf.
fn started() -> Lists {
    let mut lists = Lists::zeroed();
    (lists.letters, lists.used, lists.contexts) = (1, 1, 1);
    lists
}

fn words(size: usize, filler: u32) -> Vec<u32> {
    let mut words = vec![filler; size];
    let hole = [255, 0, 0, 0, 0, 0];
    let end = size.min(6);
    words[..end].copy_from_slice(&hole[..end]);
    words
}

#[test]
fn words_lent() {
    let whole = [6, 12, 18, 98_298, 98_304];
    let other = [0, 1, 5, 7, 11, 98_299, 98_303, 98_305, 98_310, 196_608];
    for size in whole.into_iter().chain(other) {
        for filler in [0, 7, u32::MAX] {
            let (words, lists) = (words(size, filler), started());
            let number = if whole.contains(&size) { 0 } else { 18 };
            assert_eq!(look(&Tables { words, lists }).number, number, "{size}");
        }
    }
}

#[test]
fn used_rows() {
    for size in [6, 12, 98_298, 98_304] {
        let words = words(size, 0);
        for used in [0, 1, 2, 3, 16_382, 16_383, 16_384, 16_385, 65_535] {
            let mut lists = started();
            lists.used = used;
            let words = words.clone();
            look(&Tables { words, lists });
        }
    }
}

/// All rows used: leaves first, then a chain over the last of them.
#[test]
fn all_rows_used() {
    let mut words = words(98_304, 0);
    let mut lists = started();
    (lists.letters, lists.counts[63], lists.used) = (64, 1, 16_384);
    for row in 1..16_384 {
        let leaf = row < 64;
        words[6 * row] = if leaf { row as u32 - 1 } else { 63 };
        words[6 * row + 2] = if leaf { 0 } else { row as u32 - 1 };
    }
    let mut tables = Tables { words, lists };
    assert_eq!(look(&tables).number, 0);
    tables.lists.used = 16_385;
    assert_eq!(look(&tables).number, 30);
    for letters in [0, 63, 65, 255] {
        (tables.lists.used, tables.lists.letters) = (16_384, letters);
        assert_eq!(look(&tables).number, 30);
    }
}

/// Lengths around every end, by all combinations, over entries that are all 0 and all random.
#[test]
fn lengths() {
    let mut random = Random::new(91);
    let words = words(60, 0);
    for letters in [0, 1, 64, 65, 255] {
        for states in [0, 1, 32, 33, 255, 256, 257, 65_535] {
            for rules in [0, 1, 256, 257, 65_535] {
                for contexts in [0, 1, 2, 289, 290, 65_535] {
                    let mut lists = started();
                    (lists.letters, lists.states) = (letters, states);
                    (lists.rules, lists.contexts) = (rules, contexts);
                    let words = words.clone();
                    let mut tables = Tables { words, lists };
                    look(&tables);
                    tables.lists.s.fill_with(|| random.below(3) as u16);
                    tables.lists.t.fill_with(|| random.bits() as u16);
                    tables.lists.c.fill_with(|| random.below(290) as u16);
                    look(&tables);
                }
            }
        }
    }
}

#[test]
fn every_number_at_its_largest() {
    let mut lists = started();
    (lists.letters, lists.states, lists.accepted) = (255, 65_535, 255);
    (lists.used, lists.rules, lists.contexts) = (65_535, 65_535, 65_535);
    (lists.hand, lists.asked) = (65_535, 65_535);
    for size in [0, 5, 6, 98_304, 98_310] {
        let lists = lists.clone();
        look(&Tables {
            words: vec![u32::MAX; size],
            lists,
        });
    }
}
