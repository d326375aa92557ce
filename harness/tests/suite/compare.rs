//! One call by bank and by the second program, and the words afterwards.

use harness::lent::{Lent, ROW_WORDS};
use harness::plain::{self, Grown};
use harness::probe::{self, Reply, FULL, REFUSED};

/// T1 and the places of holes; whether T1 holds.
pub fn pass(lent: &Lent) -> bool {
    let expected = plain::Terms::read(lent).map(|terms| terms.marks());
    assert_eq!(probe::pass(lent), expected, "pass of {lent:?}");
    expected.is_some()
}

/// The row of a symbol and places.
pub fn find(lent: &Lent, symbol: u32, places: [u32; 4]) -> u16 {
    let expected = plain::Terms::read(lent).map_or(0, |terms| terms.find((symbol, places)));
    let found = probe::find(lent, symbol, places);
    assert_eq!(found, expected, "find {symbol} {places:?} in {lent:?}");
    found
}

/// A context filled.
pub fn fill(lent: &Lent, context: u16, with: u16) -> Reply {
    let expected = plain::fill(lent, context, with);
    let outcome = probe::fill(lent, context, with);
    grown(
        lent,
        &format!("fill {context} with {with}"),
        outcome,
        expected,
    )
}

/// A listed record stored.
pub fn store(lent: &Lent, symbols: &[u8]) -> Reply {
    let expected = plain::store(lent, symbols);
    let outcome = probe::store(lent, symbols);
    grown(lent, &format!("store {symbols:?}"), outcome, expected)
}

/// The row of a listed record.
pub fn known(lent: &Lent, symbols: &[u8]) -> u16 {
    let expected = plain::known(lent, symbols);
    let row = probe::known(lent, symbols);
    assert_eq!(row, expected, "known {symbols:?} in {lent:?}");
    row
}

/// The fault of a listed record.
pub fn fault(counts: &[u8], symbols: &[u8]) -> u8 {
    let expected = plain::fault(counts, symbols);
    let number = probe::fault(counts, symbols);
    assert_eq!(number, expected, "fault of {symbols:?} over {counts:?}");
    number
}

/// A reply, and every word that it determines: all of them, or the used rows where rows ran out.
fn grown(lent: &Lent, call: &str, outcome: (Reply, Vec<u32>), expected: Grown) -> Reply {
    let (reply, words) = outcome;
    let kept = ROW_WORDS * lent.used as usize;
    let (said, right) = match &expected {
        Grown::Refused => (REFUSED, words == lent.words),
        Grown::Full => (FULL, words[..kept] == lent.words[..kept]),
        Grown::At {
            row,
            used,
            words: left,
        } => {
            let (row, used) = (*row, *used);
            (Reply { code: 1, row, used }, &words == left)
        }
    };
    assert_eq!(reply, said, "{call} in {lent:?}");
    assert!(right, "{call} in {lent:?}leaves {words:?}");
    reply
}
