//! Rows made against the index, lent and added.

use harness::aimed::Aim;
use harness::cases::colliding;
use harness::cases::compare::Met;
use harness::index_model::{Index, MOST_COMPARED, ROOMS};
use oracle::limits::ROWS_MAX;
use oracle::testing::big;
use oracle::testing::watch::each_case;

const AIMS: [Aim; 3] = [Aim::OneBucket, Aim::Trees(64), Aim::Trees(ROWS_MAX)];

/// Offers that add rows of one bucket or against the trees, and calls on what they leave.
#[test]
fn added() {
    each_case(251, 0..6, |case, random| {
        let room = [2_048, ROWS_MAX][case as usize / 3];
        let mut met = Met::default();
        let tables = colliding::added(AIMS[case as usize % 3], room, random, &mut met);
        met.at_least(6, [0]);
        assert!(tables.lists.used > 3_000, "{tables:?}");
        let walks = Index::of(ROWS_MAX, &tables.words, tables.lists.used).walks();
        println!("added: {walks}");
        assert!((7..=MOST_COMPARED).contains(&walks.most));
    });
}

#[test]
fn lent() {
    let all = [
        big::full(4_000, 8_000),
        big::proposing(40),
        big::spine(4_000),
        big::exchanges(8_000),
    ];
    let mut met = Met::default();
    each_case(252, 0..4, |case, _| {
        let rounds = [
            (Aim::OneBucket, 900),
            (Aim::Trees(500), 500),
            (Aim::Trees(64), 2_000),
        ];
        let tables = all[case as usize].clone();
        colliding::lent(tables, ROWS_MAX, &rounds, &mut met);
    });
    met.at_least(3, [0, 36]);
}

/// Tables that just fit into each room, and one row more or less.
#[test]
fn lent_in_every_room() {
    let mut met = Met::default();
    each_case(253, 0..12, |case, random| {
        let (room, aim) = (ROOMS[case as usize / 3], AIMS[case as usize % 3]);
        let rows = room - 162 - random.within(0, 140);
        let rounds = [(aim, rows), (aim, 60), (aim, 1)];
        colliding::lent(big::spine(64), room, &rounds, &mut met);
    });
    met.at_least(3, [0]);
}
