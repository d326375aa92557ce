//! Calls that must be refused, each with its number, at any point of a run. None may
//! change anything.

use crate::calls::{accept, answer, emit, offer, start, verdict};
use crate::lent::{Judged, Lists, Seen, ASKING, PROPOSING};
use crate::limits::{RECORD_MAX, SYMBOLS_MAX};

/// Runs one call on the tables and panics unless it is refused with the number and
/// leaves everything as it was.
fn refused(
    words: &mut [u32],
    lists: &mut Lists,
    number: u8,
    call: impl FnOnce(&mut [u32], &mut Lists) -> Seen,
) {
    let before = (words.to_vec(), lists.clone());
    let seen = call(words, lists);
    let expected = Seen {
        number,
        ..Seen::default()
    };
    assert_eq!(seen, expected, "the refusal over {:?}", before.1);
    assert!(
        words == before.0 && *lists == before.1,
        "refusal {number} changed something"
    );
}

/// Asks for a verdict and panics unless that is refused with the number.
fn not_judged(words: &[u32], lists: &Lists, number: u8, symbols: &[u8]) {
    let expected = Judged {
        number,
        ..Judged::default()
    };
    assert_eq!(verdict(words, lists, symbols), expected, "over {lists:?}");
}

/// A symbol without children.
fn leaf(lists: &Lists) -> u8 {
    let leaf = lists.alphabet().iter().position(|&count| count == 0);
    leaf.unwrap_or(0) as u8
}

/// Lists of symbols that are no records, each with its number.
fn no_records(lists: &Lists) -> Vec<(u8, Vec<u8>)> {
    let (leaf, letters) = (leaf(lists), lists.letters);
    let mut found = vec![
        (11, vec![]),
        (12, vec![200; RECORD_MAX + 1]),
        (13, vec![leaf, letters]),
        (15, vec![leaf, leaf]),
    ];
    if let Some(inner) = lists.alphabet().iter().position(|&count| count > 0) {
        found.push((14, vec![inner as u8, letters]));
    }
    found
}

/// Every refusal that the phase allows and that needs no knowledge of the language.
pub fn try_all(words: &mut [u32], lists: &mut Lists) {
    let cut = words.len() - 1;
    refused(&mut words[..cut], lists, 18, |w, l| start(w, l, &[0]));
    refused(&mut words[..cut], lists, 18, |w, l| answer(w, l, 0));
    refused(&mut words[..0], lists, 18, |w, l| offer(w, l, &[], 7));
    refused(words, lists, 17, |w, l| start(w, l, &[]));
    refused(words, lists, 17, |w, l| start(w, l, &[0; SYMBOLS_MAX + 1]));
    refused(words, lists, 17, |w, l| start(w, l, &[0, 5]));
    not_judged(&words[..cut], lists, 18, &[]);
    if lists.seen().phase != ASKING {
        for (number, symbols) in no_records(lists) {
            not_judged(words, lists, number, &symbols);
        }
    }
    match lists.seen().phase {
        PROPOSING => try_proposing(words, lists),
        ASKING => {
            not_judged(words, lists, 31, &[]);
            refused(words, lists, 16, |w, l| answer(w, l, 2));
            refused(words, lists, 31, |w, l| offer(w, l, &[], 7));
            refused(words, lists, 31, accept);
            assert_eq!(emit(words, lists, &mut []).number, 31);
        }
        _ => {
            refused(words, lists, 31, |w, l| answer(w, l, 2));
            refused(words, lists, 31, |w, l| offer(w, l, &[], 7));
            refused(words, lists, 31, accept);
        }
    }
}

fn try_proposing(words: &mut [u32], lists: &mut Lists) {
    refused(words, lists, 31, |w, l| answer(w, l, 9));
    for (number, symbols) in no_records(lists) {
        refused(words, lists, number, |w, l| offer(w, l, &symbols, 9));
    }
    let leaf = leaf(lists);
    refused(words, lists, 16, |w, l| offer(w, l, &[leaf], 2));
    let mut out = vec![0xA5; 4096];
    let size = emit(words, lists, &mut out).size as usize;
    let mut short = vec![0xA5; size - 1];
    assert_eq!(emit(words, lists, &mut short).number, 20);
    assert!(
        short.iter().all(|&byte| byte == 0xA5),
        "a refused emission wrote"
    );
    assert!(
        out[size..].iter().all(|&byte| byte == 0xA5),
        "bytes beyond the list"
    );
}
