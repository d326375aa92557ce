//! Full tables: sound, damaged, in another order, with rows that collide, and on a stack of 4 MB.

use crate::compare::look;
use harness::aimed::Aim;
use harness::crowded::Crowded;
use harness::flat;
use harness::index_model::ROOMS;
use harness::strange::shuffled;
use oracle::limits::{ROWS_MAX, ROW_WORDS};
use oracle::testing::big;
use oracle::testing::compare::Tables;
use oracle::testing::damage::damage;
use oracle::testing::random::Random;
use oracle::testing::watch::each_case;

fn all() -> [Tables; 12] {
    [
        big::full(8_000, 0),
        big::widest(8_000, 0),
        big::proposing(71),
        big::spine(big::SPINE_MAX),
        big::beside(),
        big::beside_flat(),
        big::unfilled(),
        big::widest(12_000, 0),
        big::widest(15_000, 0),
        big::exchanges(16_000),
        big::doubling(16_378),
        big::deep_context(8_189),
    ]
}

/// What the generators promise.
#[test]
fn counts() {
    let counts = all().map(|tables| {
        let seen = look(&tables);
        assert_eq!(seen.number, 0);
        (tables.lists.used, seen.states, seen.rules, seen.contexts)
    });
    let expected = [
        (16_384, 32, 256, 288),
        (16_384, 32, 256, 289),
        (16_232, 32, 256, 72),
        (16_384, 32, 33, 65),
        (16_384, 2, 256, 2),
        (16_384, 2, 256, 2),
        (16_384, 2, 256, 3),
        (16_384, 32, 256, 289),
        (16_384, 32, 256, 289),
        (16_003, 1, 2, 1),
        (16_383, 1, 3, 1),
        (16_381, 1, 2, 2),
    ];
    assert_eq!(counts, expected);
}

#[test]
fn on_a_small_stack() {
    for tables in all() {
        let call = move || look(&tables).number;
        assert_eq!(harness::cases::on_a_small_stack(call).unwrap(), 0);
    }
}

#[test]
fn in_another_order() {
    let mut random = Random::new(121);
    for tables in all() {
        assert_eq!(look(&shuffled(&tables, &mut random)).number, 0);
    }
}

/// One field or several, most of them words of the table.
#[test]
fn damaged() {
    let all = all();
    each_case(122, 0..480, |case, random| {
        let mut damaged = all[case as usize % all.len()].clone();
        for _ in 0..random.within(1, 2) {
            damage(&mut damaged, random);
        }
        look(&damaged);
    });
}

/// Any answer of a full table forgotten or turned round.
#[test]
fn answers_changed() {
    let mut all = all();
    each_case(123, 0..480, |case, random| {
        let place = case as usize % all.len();
        let tables = &mut all[place];
        let used = tables.lists.used as usize;
        let word = random.within(1, used - 1) * ROW_WORDS + 1;
        let old = tables.words[word];
        tables.words[word] = random.below(3) as u32;
        look(tables);
        tables.words[word] = old;
    });
}

/// The last row made a twin of the one before is refused.
fn twin_refused(mut tables: Tables) {
    let end = tables.lists.used as usize * ROW_WORDS;
    let last = end - ROW_WORDS;
    tables.words.copy_within(last - ROW_WORDS..last, last);
    assert_eq!(look(&tables).number, 30);
}

/// Rows of one bucket, and rows against the trees of one bucket and of many.
#[test]
fn colliding() {
    let all = [
        big::widest(4_000, 8_000),
        big::proposing(40),
        big::spine(4_000),
    ];
    each_case(124, 0..6, |case, _| {
        let tables = all[case as usize % 3].clone();
        let symbols = [4, 50][case as usize / 3];
        let mut crowded = Crowded::over(tables, symbols, ROWS_MAX);
        let rounds = [
            (Aim::OneBucket, 1_000),
            (Aim::Trees(500), 500),
            (Aim::Trees(128), ROWS_MAX),
        ];
        for (aim, rows) in rounds {
            crowded.add(aim, rows);
            assert_eq!(look(&crowded.strange.tables).number, 0);
        }
        assert_eq!(crowded.room(), 0);
        twin_refused(crowded.strange.tables);
    });
}

/// The same in each room, with nothing learnt: all rows are against the index.
#[test]
fn colliding_in_every_room() {
    each_case(125, 0..12, |case, random| {
        let room = ROOMS[case as usize % 4];
        let aim = [Aim::OneBucket, Aim::Trees(64), Aim::Trees(ROWS_MAX)][case as usize / 4];
        let (leaves, symbols) = (random.within(1, 20), random.within(1, 44));
        let tables = Crowded::over_leaves(leaves, symbols, room).filled(aim);
        assert_eq!(tables.lists.used as usize, room);
        assert_eq!(look(&tables).number, 0);
        twin_refused(tables);
    });
}

/// Contexts beside C: what they fill to is looked for in long walks.
#[test]
fn contexts_beside() {
    each_case(126, 0..2, |case, _| {
        let tables = [flat::scattered, flat::against][case as usize]();
        assert!(tables.lists.used > 16_000);
        assert_eq!(look(&tables).number, 0);
        twin_refused(tables);
    });
}
