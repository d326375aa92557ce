//! Contents made against the index: every answer stays right.

use crate::compare;
use harness::colliding::{Sort, ALL, FEW};
use harness::index_model::{MULTIPLIERS, ROOMS};
use harness::lent::{Lent, ROWS_MAX, ROW_WORDS};
use harness::random::{each_case, Random};

/// The tables are made for the buckets and keys of bank.
#[test]
fn multipliers_are_those_of_bank() {
    let index = include_str!("../../../crates/bank/src/index.rt");
    let [symbol, places @ ..] = MULTIPLIERS;
    assert!(index.contains(&format!("times(symbol, {symbol})")));
    for (place, multiplier) in places.iter().enumerate() {
        let times = format!("times(places[{place}], {multiplier})");
        assert!(index.contains(&times), "{times}");
    }
    assert!(index.contains("scaled(sum % 2147483648, size)"));
    assert!(index.contains("(x * size as u64 / 2147483648) as usize"));
    assert!(index.contains("bucket(2 * size, symbol, places)"));
    assert!(index.contains("places[0] as u64 % BASE + BASE * lower"));
}

/// The table passes, its rows are found, and a twin at its end is seen.
fn holds(lent: &Lent) {
    assert!(compare::pass(lent));
    let mut random = Random::new(41);
    let used = lent.used as usize;
    for _ in 0..12 {
        let row = 1 + random.below(used - 1);
        let found = compare::find(lent, lent.symbol(row), lent.places(row));
        assert_eq!(found as usize, row);
        let mut twin = lent.clone();
        let words = lent.row(row).to_vec();
        twin.words[ROW_WORDS * (used - 1)..].copy_from_slice(&words);
        assert_eq!(compare::pass(&twin), row == used - 1);
    }
}

/// The pass, which `probe` makes in the largest room, on tables made for every room.
#[test]
fn tables_made_for_every_room() {
    each_case(46, 0..24, |case, _| {
        let sort: Sort = [FEW, ALL].concat()[case as usize % 6];
        let room = ROOMS[case as usize / 6];
        let lent = sort.table(room, ROWS_MAX);
        assert_eq!(lent.used as usize, room);
        holds(&lent);
        holds(&sort.table(room, room));
    });
}

/// Rows that are not there, beside every row: one of its places is another.
#[test]
fn rows_that_are_missing() {
    each_case(47, 0..6, |case, random| {
        let lent = [FEW, ALL].concat()[case as usize].table(2_048, 2_048);
        for _ in 0..40 {
            let row = 1 + random.below(2_047);
            let mut places = lent.places(row);
            places[random.below(4)] = random.below(2_048) as u32;
            compare::find(&lent, lent.symbol(row), places);
        }
    });
}

#[test]
fn rows_added_to_a_crowd() {
    for sort in [FEW[1], FEW[2]] {
        let lent = sort.table(600, ROWS_MAX).with_rows(620, 1);
        each_case(45, 0..100, |_, random| {
            let mut symbols: Vec<u8> = (0..16).map(|_| random.below(20) as u8).collect();
            symbols.insert(16, 20);
            symbols.extend([20, 21, 22, 23]);
            compare::store(&lent, &symbols);
            compare::known(&lent, &symbols);
        });
    }
}
