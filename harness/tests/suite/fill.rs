//! Contexts filled, with rows running out at every place.

use crate::compare;
use harness::lent::ROWS_MAX;
use harness::probe::{FULL, REFUSED};
use harness::random::{each_case, Random};
use harness::sound;

/// Every pair of numbers up to past the used rows, with 0 to 4 rows of room.
#[test]
fn every_pair() {
    let mut codes = [0; 3];
    each_case(21, 0..400, |_, random| {
        let lent = sound::table(random, 14, 4);
        for context in 0..lent.used + 2 {
            for with in 0..lent.used + 2 {
                codes[compare::fill(&lent, context, with).code as usize] += 1;
            }
        }
    });
    assert!(codes.iter().all(|&count| 500 < count), "{codes:?}");
}

/// Larger tables, a few pairs each, with more and less room than is needed.
#[test]
fn larger_tables() {
    each_case(22, 0..600, |_, random| {
        let lent = sound::table(random, 300, 40);
        let last = lent.used as usize;
        for _ in 0..4 {
            let context = random.below(last) as u16;
            let with = random.below(last) as u16;
            compare::fill(&lent, context, with);
        }
    });
}

#[test]
fn rows_run_out_at_every_place() {
    for length in 0..24u16 {
        let lent = sound::chain(length as usize);
        let leaf = length + 1;
        for room in 0..length as usize + 2 {
            let rows = lent.used as usize + room;
            let lent = lent.clone().with_rows(rows, 9);
            let reply = compare::fill(&lent, length, leaf);
            assert_eq!(reply == FULL, room < length as usize);
        }
    }
}

#[test]
fn tables_that_fail_are_left() {
    each_case(23, 0..500, |_, random| {
        let mut lent = sound::table(random, 14, 4);
        lent.words[0] = 254;
        assert_eq!(compare::fill(&lent, 0, 0), REFUSED);
    });
}

#[test]
fn extreme_rows() {
    let mut random = Random::new(24);
    let lent = sound::large(&mut random, ROWS_MAX);
    let numbers = [0, 1, 2, 8_191, 16_382, 16_383, 16_384, 32_768, 65_535];
    for context in numbers {
        for with in numbers {
            compare::fill(&lent, context, with);
        }
    }
}
