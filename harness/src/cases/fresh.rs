//! Fresh runs under teachers of all sorts, refused calls in between.

use super::compare::Met;
use super::refusals::try_all;
use crate::targets;
use crate::teaching::{roaming, told, truthful};
use oracle::limits::ROW_WORDS;
use oracle::testing::compare::{Call, Tables};
use oracle::testing::random::Random;
use oracle::testing::target::Target;
use oracle::Lists;

/// A start over rubbish, made by both.
fn start(target: &Target, rows: usize, random: &mut Random, met: &mut Met) -> Tables {
    let mut tables = Tables {
        words: (0..rows * ROW_WORDS)
            .map(|_| random.bits() as u32)
            .collect(),
        lists: Lists::zeroed(),
    };
    tables.lists.c.fill_with(|| random.bits() as u16);
    tables.lists.s.fill_with(|| random.bits() as u16);
    (tables.lists.used, tables.lists.accepted) = (77, 5);
    let seen = met.call(&mut tables, &Call::Start(target.counts().to_vec()));
    assert_eq!(seen.number, 0);
    tables
}

/// Follows a teacher until the run is accepted or so many calls are made, with refused calls so
/// often out of a hundred.
fn follow(
    mut tables: Tables,
    random: &mut Random,
    (calls, refusals): (usize, usize),
    met: &mut Met,
    teacher: impl Fn(&Tables, &mut Random) -> Call,
) -> Tables {
    for _ in 0..calls {
        if random.percent(refusals) {
            try_all(&tables, random, met);
        }
        let call = teacher(&tables, random);
        let seen = met.call(&mut tables, &call);
        assert!(matches!(seen.number, 0 | 32..=36), "a fresh run is sound");
        met.look_again(&tables, seen);
        if tables.lists.accepted == 1 || seen.number == 34 {
            break;
        }
    }
    tables
}

/// Half of the targets have few symbols and most of their rules, so that records stay in hand.
fn random_target(random: &mut Random, states: usize, letters: usize) -> Target {
    if random.percent(50) {
        return Target::sized(random, states);
    }
    let states = random.within(1, states);
    let letters = random.within(1, letters);
    let most = random.within(states, 6 * states);
    targets::random(random, states, letters, most)
}

/// A teacher that is always right, with small counterexamples or any.
pub fn truthful_teacher(random: &mut Random, met: &mut Met) {
    let target = random_target(random, 8, 64);
    let tables = start(&target, 2_000, random, met);
    let small = random.percent(30);
    let tables = follow(
        tables,
        random,
        (2_000, 3),
        met,
        |tables, random| match small {
            true => truthful(&target, tables),
            false => roaming(&target, tables, random),
        },
    );
    if tables.lists.accepted == 1 {
        try_all(&tables, random, met);
    }
}

/// An automaton of up to so many states over all rows there may be, to its acceptance.
pub fn large_automaton(random: &mut Random, states: usize, met: &mut Met) {
    let letters = *random.pick(&[2, 3, 4, 8, 64]);
    let target = targets::random(random, states, letters, 100);
    let tables = start(&target, 16_384, random, met);
    follow(tables, random, (4_000, 1), met, |tables, _| {
        truthful(&target, tables)
    });
}

/// A teacher whose answers contradict each other, over few rows or many.
pub fn contradictory_teacher(random: &mut Random, met: &mut Met) {
    let target = random_target(random, 12, 10);
    let honest = *random.pick(&[95, 80, 50]);
    let rows = *random.pick(&[20, 60, 400, 3_000]);
    let tables = start(&target, rows, random, met);
    follow(tables, random, (150, 3), met, |tables, random| {
        told(&target, tables, random, honest)
    });
}

/// Any call with any input, most of them refused.
pub fn random_teacher(random: &mut Random, met: &mut Met) {
    let target = random_target(random, 4, 6);
    let mut tables = start(&target, 120, random, met);
    for _ in 0..120 {
        let call = any_call(&target, random);
        let seen = met.call(&mut tables, &call);
        assert_ne!(seen.number, 30, "a fresh run is sound");
        met.look_again(&tables, seen);
    }
}

fn any_call(target: &Target, random: &mut Random) -> Call {
    let mark = *random.pick(&[0, 0, 0, 1, 1, 1, 2, 255]);
    match random.below(40) {
        0 => Call::Accept,
        1 => Call::Look,
        2 if random.percent(10) => Call::Start(target.counts().to_vec()),
        3..=5 => {
            let symbol = random.below(target.counts().len() + 1) as u8;
            Call::Offer(vec![symbol; random.below(3)], mark)
        }
        6..=20 => Call::Answer(mark),
        _ => Call::Offer(Target::random_record(target.counts(), random, 9), mark),
    }
}
