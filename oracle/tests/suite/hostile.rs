//! Lent contents of any kind: no call may panic, run on, or change what it refuses.

use oracle::limits::{ROWS_MAX, ROW_WORDS};
use oracle::testing::big;
use oracle::testing::compare::{fast, Call, Tables};
use oracle::testing::damage::damage;
use oracle::testing::random::Random;
use oracle::testing::watch::each_case;
use oracle::{verdict, Judged, Lists};

fn calls() -> [Call; 7] {
    [
        Call::Look,
        Call::Answer(0),
        Call::Answer(1),
        Call::Accept,
        Call::Emit(5_000),
        Call::Offer(vec![0], 1),
        Call::Offer(vec![1, 0], 0),
    ]
}

/// Makes every call; a refused one leaves the tables as they were, and tells no verdict.
fn survive(tables: &Tables) {
    for symbols in [&[][..], &[0], &[1, 0], &[0, 1]] {
        let judged = verdict(&tables.words, &tables.lists, symbols);
        let told = Judged {
            number: judged.number,
            ..Judged::default()
        };
        assert_eq!(judged == told, judged.number != 0, "{symbols:?}");
    }
    for call in calls() {
        let outcome = fast(tables, &call);
        if outcome.seen.number != 0 || outcome.emitted.number != 0 {
            assert_eq!(&outcome.tables, tables, "{call:?}");
            assert!(outcome.out.iter().all(|&byte| byte == 0xA5));
        }
    }
}

/// Every list field random over its whole range.
fn random_lists(random: &mut Random) -> Lists {
    let mut lists = Lists::zeroed();
    lists.letters = random.bits() as u8;
    lists.used = random.bits() as u16;
    lists.states = random.bits() as u16;
    lists.rules = random.bits() as u16;
    lists.contexts = random.bits() as u16;
    lists.hand = random.bits() as u16;
    lists.asked = random.bits() as u16;
    lists.accepted = random.bits() as u8;
    lists.counts.fill_with(|| random.bits() as u8);
    lists.s.fill_with(|| random.bits() as u16);
    lists.t.fill_with(|| random.bits() as u16);
    lists.c.fill_with(|| random.bits() as u16);
    lists
}

#[test]
fn wholly_random_tables() {
    each_case(41, 0..5_000, |_, random| {
        let size = random.below(60);
        let words = (0..size).map(|_| random.bits() as u32).collect();
        let lists = random_lists(random);
        survive(&Tables { words, lists });
    });
}

#[test]
fn every_field_at_its_largest() {
    let mut lists = Lists::zeroed();
    lists.letters = 255;
    lists.used = 65_535;
    lists.states = 255;
    lists.rules = 65_535;
    lists.contexts = 65_535;
    lists.hand = 65_535;
    lists.asked = 65_535;
    lists.accepted = 255;
    for rows in [1, 2, ROWS_MAX, ROWS_MAX + 1] {
        let words = vec![u32::MAX; rows * ROW_WORDS];
        survive(&Tables {
            words,
            lists: lists.clone(),
        });
    }
}

#[test]
fn large_tables_damaged() {
    let tables = [
        big::full(800, 14_000),
        big::proposing(8),
        big::exchanges(900),
        big::doubling(60),
        big::deep_context(700),
    ];
    let tables = tables.map(|mut tables| {
        let rows = tables.lists.used as usize + 40;
        tables.words.truncate(rows * ROW_WORDS);
        tables
    });
    each_case(42, 0..2_000, |case, random| {
        let mut damaged = tables[case as usize % tables.len()].clone();
        damage(&mut damaged, random);
        survive(&damaged);
    });
}

/// Rows that differ in few bits and share widely, as a weak hash would confuse.
#[test]
fn structured_contents() {
    let mut words = vec![255, 0, 0, 0, 0, 0, 0, 1, 0, 0, 0, 0];
    for row in 2..ROWS_MAX as u32 {
        let power = 1 << (row % 13);
        let children = [row - 1, (row - 1) & !(power - 1), row / 2, 1].map(|child| child.max(1));
        words.extend([1, 1]);
        words.extend(children);
    }
    let mut lists = Lists::zeroed();
    lists.letters = 2;
    lists.counts[1] = 4;
    lists.used = ROWS_MAX as u16;
    lists.contexts = 1;
    let tables = Tables { words, lists };
    assert_eq!(fast(&tables, &Call::Look).seen.number, 0);
    survive(&tables);
}
