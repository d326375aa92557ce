//! Loading: lists of runs, damaged at every byte, cut and extended, and bytes that are no list.

use super::compare::Met;
use crate::teacher::Taught;
use oracle::testing::random::Random;
use oracle::testing::reading::list;

/// The list of a random run.
pub fn proposed(random: &mut Random) -> Option<Vec<u8>> {
    let tables = Taught::random(random).proposing(random, 40)?;
    Some(list(&tables.words, &tables.lists))
}

/// A block of a list (docs/SPECIFICATION.md, 6.1).
pub fn block(kind: u16, body: &[u8]) -> Vec<u8> {
    let size = (body.len() as u32).to_le_bytes();
    [&size[..], &kind.to_le_bytes(), body].concat()
}

/// 64 symbols, 32 states and 256 rules of four children with distinct left sides.
pub fn longest_list() -> Vec<u8> {
    let mut bytes = [block(1, &[4; 64]), block(2, &[1; 32])].concat();
    for rule in 0..=255u8 {
        bytes.extend(block(3, &[0, 0, 0, rule / 32, rule % 32, 0]));
    }
    bytes
}

/// Every byte set to every value; every byte taken out, doubled, and cut after.
pub fn every_byte(good: &[u8], met: &mut Met) {
    assert_eq!(met.load(good).number, 0);
    for place in 0..good.len() {
        let mut bytes = good.to_vec();
        for value in 0..=255 {
            bytes[place] = value;
            met.load(&bytes);
        }
        met.load(&good[..place]);
        met.load(&[&good[..place], &good[place + 1..]].concat());
        met.load(&[&good[..=place], &good[place..]].concat());
    }
    for extra in 0..=255 {
        met.load(&[good, &[extra]].concat());
    }
}

/// A few bytes of a list changed to small numbers.
pub fn some_bytes(good: &[u8], random: &mut Random, met: &mut Met) {
    let mut bytes = good.to_vec();
    for _ in 0..random.within(1, 4) {
        let place = random.below(bytes.len());
        bytes[place] = random.below(6) as u8;
    }
    met.load(&bytes);
}

/// Small numbers that are no list.
pub fn no_list(random: &mut Random, met: &mut Met) {
    let size = random.below(40);
    let bytes: Vec<u8> = (0..size).map(|_| random.below(5) as u8).collect();
    met.load(&bytes);
}

/// The list of a random run, damaged in all these ways.
pub fn random_list(random: &mut Random, met: &mut Met) {
    let Some(good) = proposed(random) else {
        return;
    };
    if good.len() < 400 {
        every_byte(&good, met);
    }
    for _ in 0..2_000 {
        some_bytes(&good, random, met);
        no_list(random, met);
    }
}
