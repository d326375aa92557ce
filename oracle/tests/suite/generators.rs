//! The generators end, however little there is to make a record of, and however large it would be.

use oracle::testing::elsewhere::Loose;
use oracle::testing::target::{smallest_difference, Target};
use oracle::testing::watch::each_case;

/// Trees over one leaf alone, over a few leaves, and over a leaf with parents.
#[test]
fn small_alphabets() {
    let alphabets: [&[u8]; 5] = [&[0], &[0, 0], &[0, 1], &[0, 4], &[0, 4, 4, 4]];
    each_case(71, 0..2_000, |case, random| {
        let counts = alphabets[case as usize % alphabets.len()];
        let target = Target::of(counts, &[1], &[(0, &[], 0)]);
        let record = Target::random_record(counts, random, 40);
        assert!((1..=40).contains(&record.len()));
        let mut loose = Loose::made_up(&target, random);
        loose.take_in_hand(random);
        (0..8).for_each(|_| loose.change(random));
        loose.complete(random);
        assert!(loose.tables(random).lists.used > 0);
    });
}

/// No record of fewer than 2^31 symbols tells these apart, and some sizes do not fit in 64 bits.
#[test]
fn differences_too_large() {
    let (one, other) = (Target::depths(31), Target::depths(32));
    assert_eq!(smallest_difference(&one, &other), None);
    assert_eq!(smallest_difference(&one, &one), None);
}
