//! Large tables: sound, answered at once, and with the outcome that the steps give.

use oracle::limits::ROW_WORDS;
use oracle::testing::big;
use oracle::testing::compare::{agree, Call, Tables};
use oracle::{accept, answer, emit, look, offer, Seen, ASKING, PROPOSING};

fn looked(tables: &Tables) -> Seen {
    look(&tables.words, &tables.lists)
}

fn counts(seen: Seen) -> (u8, u8, u16, u16, u16) {
    (
        seen.number,
        seen.phase,
        seen.states,
        seen.rules,
        seen.contexts,
    )
}

/// The record in hand is exchanged link by link; one context then tells o[p] from p.
#[test]
fn chains_in_hand() {
    for links in [2, 3, 4, 10, 1_026, 1_027, 1_028, 8_000, 16_000, 16_380] {
        let mut tables = big::exchanges(links);
        assert_eq!(
            counts(looked(&tables)),
            (0, ASKING, 1, 2, 1),
            "{links} links"
        );
        let seen = answer(&mut tables.words, &mut tables.lists, 0);
        assert_eq!(counts(seen), (0, PROPOSING, 2, 2, 2), "{links} links");
        assert_eq!(seen, looked(&tables));
        let lists = &tables.lists;
        assert_eq!((lists.s[0], lists.s[1]), (1, 2));
        let context = lists.c[1] as usize * ROW_WORDS;
        assert_eq!(tables.words[context..][..ROW_WORDS], [0, 0, 0, 0, 0, 0]);
        assert_eq!(lists.used as usize, links + 4);
    }
}

/// The same chain when no row is left for the context.
#[test]
fn chain_in_hand_without_room() {
    let mut tables = big::exchanges(16_000);
    tables
        .words
        .truncate(tables.lists.used as usize * ROW_WORDS);
    let before = tables.clone();
    assert_eq!(answer(&mut tables.words, &mut tables.lists, 0).number, 34);
    assert_eq!(tables, before);
}

/// A record of 2 to the 60 leaves: each exchange asks about one leaf fewer.
#[test]
fn shared_rows_are_not_unfolded() {
    let mut tables = big::doubling(60);
    assert_eq!(counts(looked(&tables)), (0, ASKING, 1, 3, 1));
    let seen = answer(&mut tables.words, &mut tables.lists, 1);
    assert_eq!(counts(seen), (0, ASKING, 1, 3, 1));
    assert_eq!(tables.lists.used, 65 + 60, "one new row for each level");
    for _ in 0..200 {
        let hand = tables.lists.hand;
        let asked = tables.lists.asked;
        let seen = answer(&mut tables.words, &mut tables.lists, 0);
        assert_eq!((seen.number, seen.phase), (0, ASKING));
        assert_ne!(tables.lists.hand, hand);
        assert_eq!(
            tables.lists.hand, asked,
            "equal answers: that record is in hand"
        );
    }
    let seen = answer(&mut tables.words, &mut tables.lists, 1);
    assert_eq!((seen.number, seen.phase, seen.contexts), (0, ASKING, 2));
    assert_eq!(tables.lists.hand, 0);
}

#[test]
fn full_tables() {
    let mut tables = big::full(8_000, 0);
    assert_eq!(tables.lists.used, 16_384);
    assert_eq!(counts(looked(&tables)), (0, ASKING, 32, 256, 288));
    let before = tables.clone();
    assert_eq!(answer(&mut tables.words, &mut tables.lists, 1).number, 34);
    assert_eq!(tables, before);
    let mut tables = big::full(7_700, 7_800);
    let seen = answer(&mut tables.words, &mut tables.lists, 1);
    assert_eq!(counts(seen), (0, ASKING, 32, 256, 288));
    assert_eq!(seen, looked(&tables));
}

/// While answers are missing C may hold one context more than S and T together, and no
/// list goes past its array.
#[test]
fn last_context() {
    let mut tables = big::full(8_000, 0);
    let row = tables.lists.c[1] - 1;
    assert!(!tables.lists.contexts().contains(&row));
    tables.lists.c[288] = row;
    tables.lists.contexts = 289;
    assert_eq!(counts(looked(&tables)), (0, ASKING, 32, 256, 289));
    tables.lists.contexts = 290;
    assert_eq!(looked(&tables).number, 30);
    tables.lists.contexts = 289;
    tables.lists.rules = 255;
    assert_eq!(
        looked(&tables).number,
        30,
        "289 contexts over 287 representatives and transitions"
    );
}

#[test]
fn full_proposal() {
    let mut tables = big::proposing(66);
    assert_eq!(counts(looked(&tables)), (0, PROPOSING, 32, 256, 67));
    let mut out = vec![0; 4_096];
    assert_eq!(emit(&tables.words, &tables.lists, &mut out).number, 0);
    let mut long = vec![0];
    long.resize(1_022, 1);
    long.extend([8, 8]);
    assert_eq!(
        offer(&mut tables.words, &mut tables.lists, &long, 0).number,
        32
    );
    let seen = offer(&mut tables.words, &mut tables.lists, &long, 1);
    assert_eq!((seen.number, seen.phase), (0, ASKING));
    let mut tables = big::proposing(66);
    assert_eq!(accept(&mut tables.words, &mut tables.lists).phase, 2);
}

#[test]
fn deep_contexts() {
    for depth in [1, 1_025, 8_000, 8_189] {
        let tables = big::deep_context(depth);
        let expected = (0, PROPOSING, 1, 2, 2);
        assert_eq!(counts(looked(&tables)), expected, "{depth} rows deep");
    }
}

/// Small tables of the same kinds, call by call in both learners.
#[test]
fn small_ones_agree() {
    let mut all: Vec<Tables> = (2..14).map(big::exchanges).collect();
    all.extend((1..7).map(big::doubling));
    all.extend((1..8).map(big::deep_context));
    for tables in all {
        for call in [
            Call::Look,
            Call::Accept,
            Call::Answer(0),
            Call::Answer(1),
            Call::Emit(9_000),
        ] {
            agree(&mut tables.clone(), &call);
        }
    }
}

/// Both learners run a doubling record to the end of its exchanges.
#[test]
fn doubling_to_the_end() {
    for levels in 1..6 {
        let mut tables = big::doubling(levels);
        let mut seen = agree(&mut tables, &Call::Answer(1));
        for _ in 0..2 << levels {
            if tables.lists.hand == 0 {
                break;
            }
            seen = agree(&mut tables, &Call::Answer(0));
        }
        assert_eq!((seen.number, tables.lists.hand), (0, 0), "{levels} levels");
    }
}
