//! Listed records: faults, rows that are known, storing, with rows running out at every place.

use crate::compare;
use harness::lent::Lent;
use harness::listing;
use harness::probe::{FULL, REFUSED};
use harness::random::{each_case, Random};
use harness::sound;

/// A listed record, damaged half of the time.
fn drawn(random: &mut Random, counts: &[u8], most: usize) -> Vec<u8> {
    let size = random.within(1, most);
    let mut symbols = listing::record(random, counts, size);
    for _ in 0..8 {
        if !random.percent(40) {
            break;
        }
        listing::damage(random, &mut symbols);
    }
    symbols
}

#[test]
fn faults() {
    let mut numbers = [0; 16];
    each_case(31, 0..40_000, |_, random| {
        let mut counts = sound::alphabet(random);
        if random.percent(10) {
            counts[0] = random.bits() as u8;
        }
        let symbols = drawn(random, &counts, 12);
        numbers[compare::fault(&counts, &symbols) as usize] += 1;
    });
    for number in [0, 11, 13, 14, 15] {
        assert!(50 < numbers[number], "{numbers:?}");
    }
}

#[test]
fn faults_at_the_limits() {
    for size in [0, 1, 2, 1_023, 1_024, 1_025, 5_000] {
        for counts in [&[][..], &[0], &[1], &[0, 1], &[0, 255], &[2; 256]] {
            let mut symbols = vec![1u8; size];
            compare::fault(counts, &symbols);
            if size != 0 {
                symbols[0] = 0;
            }
            compare::fault(counts, &symbols);
            symbols.fill(255);
            compare::fault(counts, &symbols);
        }
    }
}

#[test]
fn stored_and_known() {
    let mut codes = [0; 3];
    each_case(32, 0..12_000, |_, random| {
        let lent = sound::table(random, 24, 6);
        let symbols = drawn(random, &lent.counts, 14);
        let reply = compare::store(&lent, &symbols);
        compare::known(&lent, &symbols);
        codes[reply.code as usize] += 1;
        if reply.code == 1 {
            stored_again(&lent, &symbols, reply.row, reply.used);
        }
    });
    assert!(codes.iter().all(|&count| 500 < count), "{codes:?}");
}

/// What is stored is known afterwards, and stored again without a new row.
fn stored_again(lent: &Lent, symbols: &[u8], row: u16, used: u16) {
    let (_, words) = harness::probe::store(lent, symbols);
    let counts = lent.counts.clone();
    let after = Lent {
        words,
        counts,
        used,
    };
    assert_eq!(compare::known(&after, symbols), row);
    let again = compare::store(&after, symbols);
    assert_eq!((again.code, again.row, again.used), (1, row, used));
}

#[test]
fn rows_run_out_at_every_place() {
    each_case(33, 0..400, |_, random| {
        let lent = sound::over(random, &[0, 1, 2, 3], 6);
        let size = random.within(1, 16);
        let symbols = listing::record(random, &lent.counts, size);
        let used = lent.used as usize;
        let mut last = FULL;
        for room in 0..symbols.len() + 1 {
            last = compare::store(&lent.clone().with_rows(used + room, 5), &symbols);
        }
        assert_ne!(last, FULL);
    });
}

#[test]
fn long_records() {
    each_case(34, 0..60, |_, random| {
        let counts = [0, 1, 2, 0, 4, 1];
        let lent = sound::over(random, &counts, 200).with_rows(1_200, 3);
        let symbols = drawn(random, &counts, 900);
        compare::store(&lent, &symbols);
        compare::known(&lent, &symbols);
    });
    let mut symbols = vec![1u8; 1_024];
    symbols[0] = 0;
    let lent = Lent::with_hole(&[0, 1]).with_rows(1_025, 3);
    assert_eq!(compare::store(&lent, &symbols).used, 1_025);
    symbols.push(1);
    assert_eq!(compare::store(&lent, &symbols), REFUSED);
}
