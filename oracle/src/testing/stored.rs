//! A mark against each stored answer: the six cases of 33 (docs/SPECIFICATION.md, 5.2), with either verdict.
//! Symbol 0 is `o` with one child, `p` and `q` are 1 and 2 without.

use super::compare::{Call, Tables};
use crate::lent::{Lists, Seen};
use crate::limits::ROW_WORDS;

/// A stored answer, a mark, and the number that an offer of the two gets: where the proposal says something else of the
/// record, and where it says the same.
const SIX: [(u32, u8, [u8; 2]); 6] = [
    (0, 0, [0, 32]),
    (0, 1, [0, 32]),
    (1, 0, [0, 32]),
    (1, 1, [33, 33]),
    (2, 0, [33, 33]),
    (2, 1, [0, 32]),
];

/// Tables that propose one final state for `p` under any number of `o`. The rows of `o[o[p]]`, which is accepted, and of
/// `q`, which is not, have the stored answer.
fn tables(stored: u32) -> Tables {
    let rows = [
        [255, 0, 0, 0, 0, 0],
        [1, 2, 0, 0, 0, 0],
        [0, 2, 1, 0, 0, 0],
        [0, stored, 2, 0, 0, 0],
        [2, stored, 0, 0, 0, 0],
    ];
    let mut words = rows.concat();
    words.resize(9 * ROW_WORDS, 77);
    let mut lists = Lists::zeroed();
    (lists.letters, lists.counts[0], lists.used) = (3, 1, 5);
    (lists.states, lists.rules, lists.contexts) = (1, 2, 1);
    (lists.s[0], lists.t[0], lists.t[1]) = (1, 1, 2);
    Tables { words, lists }
}

/// Offers the one of the two of which the proposal says the same, or the other; and its row.
fn offer(mark: u8, same: bool) -> (Call, usize) {
    match (mark == 1) == same {
        true => (Call::Offer(vec![1, 0, 0], mark), 3),
        false => (Call::Offer(vec![2], mark), 4),
    }
}

/// Makes the twelve offers: a refused one leaves the stored answer, and one that is taken leaves the mark's.
pub fn six_cases(mut make: impl FnMut(&mut Tables, &Call) -> Seen) {
    for (stored, mark, numbers) in SIX {
        for same in [false, true] {
            let (call, row) = offer(mark, same);
            let mut lent = tables(stored);
            let number = make(&mut lent, &call).number;
            let right = numbers[same as usize];
            assert_eq!(number, right, "stored {stored}, {call:?}");
            let left = match number {
                0 => mark as u32 + 1,
                _ => stored,
            };
            assert_eq!(lent.words[row * ROW_WORDS + 1], left, "{call:?}");
        }
    }
}

/// No other pair is tested: tables with another stored answer get 30, another mark gets 16.
pub fn no_other_pair(mut make: impl FnMut(&mut Tables, &Call) -> Seen) {
    for (stored, mark) in [(3, 0), (3, 1), (4, 2), (256, 0), (257, 1), (u32::MAX, 1)] {
        assert_eq!(make(&mut tables(stored), &offer(mark, false).0).number, 30);
    }
    for (stored, mark) in [(0, 2), (1, 2), (2, 2), (0, 255), (1, 254), (2, 3)] {
        assert_eq!(make(&mut tables(stored), &offer(mark, false).0).number, 16);
    }
}
