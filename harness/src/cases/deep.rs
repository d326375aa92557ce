//! Calls on the deepest and fullest tables.

use super::compare::Met;
use super::emitted::try_rooms;
use crate::strange::shuffled;
use oracle::limits::{RECORD_MAX, ROWS_MAX};
use oracle::testing::big;
use oracle::testing::compare::{Call, Tables};
use oracle::testing::random::Random;

/// A full-size table of any sort, its rows now and then in another order.
pub fn any_table(random: &mut Random) -> Tables {
    let depth = random.within(600, 8_000);
    let most = ROWS_MAX - depth - 600;
    let free = *random.pick(&[0, 1, most / 2, most]);
    let tables = match random.below(10) {
        0 => big::full(depth, free),
        1 => big::widest(depth, free),
        2 => big::proposing(random.within(32, 71)),
        3 => big::spine(random.within(64, big::SPINE_MAX)),
        4 => big::exchanges(random.within(2, 16_380)),
        5 => big::doubling(random.within(1, 16_378)),
        6 => big::deep_context(random.within(1, 8_189)),
        7 => big::beside(),
        8 => big::beside_flat(),
        _ => big::unfilled(),
    };
    if random.percent(30) {
        return shuffled(&tables, random);
    }
    tables
}

/// An offer of a chain, up to the longest.
fn chain(tables: &Tables, random: &mut Random) -> Call {
    let symbol = |count: u8| {
        let counts = tables.lists.alphabet();
        counts.iter().position(|&other| other == count).unwrap_or(0) as u8
    };
    let length = *random.pick(&[1, 2, 3, 60, RECORD_MAX - 1, RECORD_MAX]);
    let mut symbols = vec![symbol(1); length];
    symbols[0] = symbol(0);
    Call::Offer(symbols, random.below(2) as u8)
}

/// A few calls one after the other, most of them such as the phase allows.
pub fn random_calls(random: &mut Random, met: &mut Met) {
    let mut tables = any_table(random);
    for _ in 0..10 {
        let call = match random.below(10) {
            0 => Call::Accept,
            1 => Call::Look,
            2 => chain(&tables, random),
            3 => Call::Answer(random.below(3) as u8),
            _ if tables.lists.asked != 0 => Call::Answer(random.below(2) as u8),
            _ => chain(&tables, random),
        };
        met.call(&mut tables, &call);
    }
    try_rooms(&tables, met);
}
