//! Loading: lists of runs, damaged at every byte, cut and extended, and bytes that are no list.

use harness::cases::compare::{load, Met};
use harness::cases::lists::{block, every_byte, no_list, proposed, some_bytes};
use oracle::testing::watch::each_case;
use oracle::{Emitted, Lists};

/// The list of the worked run (docs/SPECIFICATION.md, 9).
fn worked() -> Vec<u8> {
    let mut words = vec![0; 60 * 6];
    let mut lists = Lists::zeroed();
    oracle::start(&mut words, &mut lists, &[1, 0]);
    for _ in 0..2 {
        oracle::offer(&mut words, &mut lists, &[1, 0], 1);
        oracle::answer(&mut words, &mut lists, 0);
    }
    let mut out = vec![0; 100];
    let size = oracle::emit(&words, &lists, &mut out).size;
    out.truncate(size as usize);
    out
}

#[test]
fn the_worked_run() {
    let bytes = worked();
    assert_eq!(bytes.len(), 33);
    assert_eq!(load(&bytes), Emitted { number: 0, size: 2 });
}

#[test]
fn every_byte_damaged() {
    let (mut met, mut left) = (Met::default(), 6);
    every_byte(&worked(), &mut met);
    each_case(111, 0..400, |_, random| {
        let fits = |bytes: &Vec<u8>| left > 0 && (60..400).contains(&bytes.len());
        if let Some(bytes) = proposed(random).filter(fits) {
            left -= 1;
            every_byte(&bytes, &mut met);
        }
    });
    assert_eq!(left, 0);
    met.listed_at_least(1_000, [0, 21]);
}

/// A list of two-child rules with distinct left sides, around every limit.
#[test]
fn limits_of_the_form() {
    for letters in [0, 1, 2, 63, 64, 65, 255] {
        for states in [0, 1, 31, 32, 33, 255] {
            for rules in [0, 1, 255, 256, 257, 300] {
                let counts = block(1, &vec![2; letters]);
                let mut bytes = [counts, block(2, &vec![1; states])].concat();
                for rule in 0..rules {
                    let body = [0, (rule / 32) as u8, (rule % 32) as u8, 0];
                    bytes.extend(block(3, &body));
                }
                load(&bytes);
                bytes.extend(block(3, &[0, 0, 0, 0]));
                load(&bytes);
            }
        }
    }
}

#[test]
fn random_bytes() {
    let mut met = Met::default();
    let good = worked();
    each_case(112, 0..200_000, |_, random| {
        no_list(random, &mut met);
        some_bytes(&good, random, &mut met);
    });
    load(&[]);
    load(&vec![0; 1 << 20]);
    load(&[&[255; 4], &good[4..]].concat());
}
