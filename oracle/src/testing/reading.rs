//! What tables say: the proposed automaton, and the symbols of a row.

use super::target::Target;
use crate::calls::emit;
use crate::lent::{Lists, Row};
use crate::limits::{RECORD_MAX, ROW_WORDS};
use crate::list::automaton;

/// The bytes that emitting writes.
pub fn list(words: &[u32], lists: &Lists) -> Vec<u8> {
    let mut out = vec![0; 4_096];
    let emitted = emit(words, lists, &mut out);
    assert_eq!(emitted.number, 0);
    out.truncate(emitted.size as usize);
    out
}

/// The proposed automaton, through its list.
pub fn proposal(words: &[u32], lists: &Lists) -> Target {
    Target::new(automaton(&list(words, lists)).expect("an emitted list reads again"))
}

/// The symbols of a row without a hole, children before parent, if they are few enough to be offered: a turn writes one.
pub fn symbols(words: &[u32], lists: &Lists, row: Row) -> Option<Vec<u8>> {
    let (mut symbols, mut open) = (Vec::new(), vec![row as usize]);
    while let Some(row) = open.pop() {
        let words = &words[row * ROW_WORDS..][..ROW_WORDS];
        symbols.push(words[0] as u8);
        let count = lists.counts[words[0] as usize] as usize;
        open.extend(words[2..][..count].iter().map(|&child| child as usize));
        if symbols.len() > RECORD_MAX {
            return None;
        }
    }
    symbols.reverse();
    Some(symbols)
}
