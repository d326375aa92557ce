//! The worked runs and boundaries of docs/SPECIFICATION.md, 9: o is symbol 0 with one child, p symbol 1.

use harness::cases::compare::Met;
use oracle::limits::ROW_WORDS;
use oracle::testing::compare::{Call, Tables};
use oracle::{Judged, Lists, Seen, ACCEPTED, ASKING, PROPOSING};
use oracle::{ACCEPTS, NOT_FINAL, NO_RULE};

/// Tables before a start, full of rubbish.
fn lent(rows: usize) -> Tables {
    let mut lists = Lists::zeroed();
    lists.t.fill(77);
    lists.c.fill(78);
    (lists.used, lists.accepted, lists.hand) = (9, 200, 3);
    Tables {
        words: vec![9; rows * ROW_WORDS],
        lists,
    }
}

fn offer(symbols: &[u8], mark: u8) -> Call {
    Call::Offer(symbols.to_vec(), mark)
}

fn seen(phase: u8, row: u16, states: u16, rules: u16, contexts: u16) -> Seen {
    Seen {
        number: 0,
        phase,
        row,
        states,
        rules,
        contexts,
    }
}

/// The six lines of the run, with what each returns.
fn lines() -> [(Call, Seen); 6] {
    [
        (Call::Start(vec![1, 0]), seen(PROPOSING, 0, 0, 0, 1)),
        (offer(&[1, 0], 1), seen(ASKING, 1, 0, 1, 2)),
        (Call::Answer(0), seen(PROPOSING, 0, 1, 1, 2)),
        (offer(&[1, 0], 1), seen(ASKING, 4, 1, 2, 2)),
        (Call::Answer(0), seen(PROPOSING, 0, 2, 2, 2)),
        (Call::Accept, seen(ACCEPTED, 0, 2, 2, 2)),
    ]
}

/// The first lines of the run over so many rows.
fn after(count: usize, rows: usize) -> Tables {
    let (mut met, mut tables) = (Met::default(), lent(rows));
    for (call, expected) in lines().into_iter().take(count) {
        let found = met.call(&mut tables, &call);
        assert_eq!(found, expected, "{call:?}");
        met.look_again(&tables, found);
    }
    tables
}

#[test]
fn each_line() {
    let tables = after(6, 9);
    let rows = [
        [255, 0, 0, 0, 0, 0],
        [1, 1, 0, 0, 0, 0],
        [0, 2, 1, 0, 0, 0],
        [0, 0, 0, 0, 0, 0],
        [0, 1, 2, 0, 0, 0],
    ];
    assert_eq!(tables.words[..30], rows.concat());
    assert_eq!(tables.words[30..], [9; 24]);
    let mut lists = Lists::zeroed();
    (lists.letters, lists.counts[0], lists.used) = (2, 1, 5);
    (lists.states, lists.rules, lists.contexts) = (2, 2, 2);
    lists.s[..2].copy_from_slice(&[1, 2]);
    lists.t[..2].copy_from_slice(&[1, 2]);
    (lists.c[1], lists.accepted) = (3, 1);
    assert_eq!(tables.lists, lists);
}

#[test]
fn five_rows_and_fewer() {
    after(6, 5);
    let mut met = Met::default();
    met.refused(&after(3, 4), &lines()[3].0, 34);
    for rows in 1..=3 {
        met.refused(&after(1, rows), &lines()[1].0, 34);
    }
}

#[test]
fn refusals() {
    let (mut met, fresh) = (Met::default(), after(1, 9));
    let offers: [(&[u8], u8); 5] = [(&[], 11), (&[0], 14), (&[1, 1], 15), (&[2], 13), (&[3], 13)];
    for (symbols, number) in offers {
        for mark in [0, 1, 2, 255] {
            met.refused(&fresh, &offer(symbols, mark), number);
        }
    }
    met.refused(&fresh, &offer(&[1, 0], 0), 32);
    met.refused(&fresh, &Call::Answer(0), 31);
    met.refused(&fresh, &Call::Answer(1), 31);
    let third = after(3, 9);
    met.refused(&third, &offer(&[1], 1), 33);
    met.refused(&third, &offer(&[1, 0], 0), 33);
}

/// The verdicts on `p`, `o[p]` and `o[o[o[p]]]` after each line, as number, outcome and place.
#[test]
fn verdicts() {
    let asking = [(31, 0, 0); 3];
    let last = [(0, NOT_FINAL, 0), (0, ACCEPTS, 0), (0, NO_RULE, 2)];
    let due = [
        [(0, NO_RULE, 0); 3],
        asking,
        [(0, NOT_FINAL, 0), (0, NO_RULE, 1), (0, NO_RULE, 1)],
        asking,
        last,
        last,
    ];
    let mut met = Met::default();
    let records: [&[u8]; 3] = [&[1], &[1, 0], &[1, 0, 0, 0]];
    for (line, due) in due.into_iter().enumerate() {
        let tables = after(line + 1, 9);
        for (record, (number, outcome, place)) in records.into_iter().zip(due) {
            let due = Judged {
                number,
                outcome,
                place,
            };
            assert_eq!(met.verdict(&tables, record), due, "{record:?}, {line}");
        }
    }
}

/// Offers of p under so many o's, and what comes of them.
#[test]
fn long_chains() {
    for (links, number) in [
        (1_022, 0),
        (1_023, 0),
        (1_024, 12),
        (1_025, 12),
        (70_000, 12),
    ] {
        let mut met = Met::default();
        let mut tables = after(1, 16_384);
        let mut chain = vec![1];
        chain.resize(links + 1, 0);
        met.refused(
            &tables,
            &offer(&chain, 0),
            if number == 0 { 32 } else { 12 },
        );
        let found = met.call(&mut tables, &offer(&chain, 1));
        assert_eq!(found.number, number, "{links} links");
        for turn in 0..12 {
            let call = match tables.lists.asked {
                0 => offer(&chain, 1),
                _ => Call::Answer((turn % 3 == 2) as u8),
            };
            met.call(&mut tables, &call);
        }
    }
}
