//! The index: every row is found, and no other.

use crate::compare;
use harness::lent::ROWS_MAX;
use harness::random::{each_case, Random};
use harness::sound;

#[test]
fn every_row_and_its_neighbours() {
    each_case(11, 0..300, |_, random| {
        let lent = sound::table(random, 30, 2);
        for row in 1..lent.used as usize {
            let (symbol, places) = (lent.symbol(row), lent.places(row));
            assert_eq!(compare::find(&lent, symbol, places) as usize, row);
            for place in 0..4 {
                for value in [
                    0,
                    1,
                    row as u32,
                    places[place] ^ 1,
                    places[place] + (1 << 16),
                    u32::MAX,
                ] {
                    let mut other = places;
                    other[place] = value;
                    compare::find(&lent, symbol, other);
                }
            }
            compare::find(&lent, symbol ^ 1, places);
            compare::find(&lent, symbol + 256, places);
        }
    });
}

/// Row 0 is no answer, and the largest numbers are looked for as any others.
#[test]
fn extreme_numbers() {
    each_case(12, 0..300, |_, random| {
        let lent = sound::table(random, 20, 2);
        assert_eq!(compare::find(&lent, 255, [0; 4]), 0);
        assert_eq!(compare::find(&lent, u32::MAX, [u32::MAX; 4]), 0);
    });
}

#[test]
fn nothing_in_a_table_that_fails() {
    each_case(13, 0..300, |_, random| {
        let mut lent = sound::table(random, 20, 2);
        lent.words[1] = 1;
        let last = lent.used as usize - 1;
        assert_eq!(
            compare::find(&lent, lent.symbol(last), lent.places(last)),
            0
        );
    });
}

#[test]
fn full_size() {
    let mut random = Random::new(14);
    let lent = sound::large(&mut random, ROWS_MAX);
    for _ in 0..200 {
        let row = 1 + random.below(ROWS_MAX - 1);
        let places = lent.places(row);
        assert_eq!(compare::find(&lent, lent.symbol(row), places) as usize, row);
        let mut other = places;
        other[random.below(4)] = random.below(ROWS_MAX) as u32;
        compare::find(&lent, lent.symbol(row), other);
    }
}
