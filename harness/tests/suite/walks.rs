//! How many rows the index compares, by its plain model, on the tables that are made against it.

use harness::aimed::Aim;
use harness::colliding::{Sort, ALL, FEW};
use harness::crowded::Crowded;
use harness::flat;
use harness::index_model::{Index, Walks, MOST_COMPARED, ROOMS};
use harness::lent::ROWS_MAX;
use harness::random::each_case;
use oracle::testing::big;
use oracle::testing::compare::Tables;

/// The searches for all rows, printed; none of them compares more than the proof allows.
fn walks(name: &str, room: usize, words: &[u32], used: u16) -> Walks {
    let walks = Index::of(room, words, used).walks();
    println!("{name}, {used} rows in room for {room}: {walks}");
    assert!(walks.most <= MOST_COMPARED);
    walks
}

/// Those of a full table.
fn full(sort: Sort, room: usize) -> Walks {
    let lent = sort.table(room, room);
    assert_eq!(lent.used as usize, room);
    walks(sort.name, room, &lent.words, lent.used)
}

#[test]
fn full_tables() {
    each_case(48, 0..4, |case, _| {
        let room = ROOMS[case as usize];
        for [scattered, one_bucket, trees] in [FEW, ALL] {
            assert!(full(scattered, room).mean() < 1.4);
            assert!(full(one_bucket, room).mean() > room.ilog2() as f64 - 2.0);
            full(trees, room);
        }
    });
}

/// What the tables against the trees reach in the largest room.
#[test]
fn long_walks() {
    let few = full(FEW[2], ROWS_MAX);
    assert!(few.mean() > 34.0 && few.most >= 44);
    let all = full(ALL[2], ROWS_MAX);
    assert!(all.mean() > 44.0 && all.most >= 49);
}

/// The walks of sound tables that are filled against the trees.
fn sound(name: &str, crowded: Crowded, aim: Aim) -> Walks {
    let Tables { words, lists } = crowded.filled(aim);
    assert_eq!(lists.used as usize, ROWS_MAX);
    walks(name, ROWS_MAX, &words, lists.used)
}

#[test]
fn sound_tables() {
    let nothing = Crowded::over_leaves(1, 63, ROWS_MAX);
    assert!(sound("nothing learnt", nothing, ALL[2].aim).mean() > 44.0);
    each_case(49, 0..6, |case, _| {
        let (name, tables) = match case % 3 {
            0 => ("32, 256, 289", big::widest(4_000, 8_000)),
            1 => ("32, 256, 41", big::proposing(40)),
            _ => ("32, 33, 65", big::spine(4_000)),
        };
        let (symbols, aim) = [(4, FEW[2].aim), (50, ALL[2].aim)][case as usize / 3];
        let crowded = Crowded::over(tables, symbols, ROWS_MAX);
        assert!(sound(name, crowded, aim).mean() > 10.0);
    });
}

/// The searches for what contexts beside C fill to.
#[test]
fn filled_contexts() {
    let tables = flat::against();
    let Tables { words, lists } = &tables;
    let index = Index::of(ROWS_MAX, words, lists.used);
    let searches = index.searches(flat::filled(&tables));
    println!("contexts beside C, filled: {searches}");
    assert!(searches.mean() > 25.0 && searches.most <= MOST_COMPARED);
}
