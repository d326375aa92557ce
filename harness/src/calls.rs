//! The calls of `crates/kuldveth` that change what is lent, and the verdict, made between guard words.

use crate::bytes::{lists_of, of_lists, of_seen, raw_seen, LISTS_BYTES};
use crate::kuldveth;
use oracle::testing::compare::{Call, Tables};
use oracle::{Judged, Lists, Seen};
use std::fmt::Debug;

// A slice crosses as a pointer and a length. The functions require nothing of what is lent.
extern "C" {
    fn kuldveth_start(
        words: *mut u32,
        size: usize,
        lists: *mut Lists,
        counts: *const u8,
        letters: usize,
    ) -> Seen;
    fn kuldveth_offer(
        words: *mut u32,
        size: usize,
        lists: *mut Lists,
        symbols: *const u8,
        length: usize,
        mark: u8,
    ) -> Seen;
    fn kuldveth_answer(words: *mut u32, size: usize, lists: *mut Lists, mark: u8) -> Seen;
    fn kuldveth_accept(words: *mut u32, size: usize, lists: *mut Lists) -> Seen;
}

pub fn start(words: &mut [u32], lists: &mut Lists, counts: &[u8]) -> Seen {
    let (pointer, size) = (words.as_mut_ptr(), words.len());
    unsafe { kuldveth_start(pointer, size, lists, counts.as_ptr(), counts.len()) }
}

pub fn offer(words: &mut [u32], lists: &mut Lists, symbols: &[u8], mark: u8) -> Seen {
    let (pointer, size) = (words.as_mut_ptr(), words.len());
    unsafe { kuldveth_offer(pointer, size, lists, symbols.as_ptr(), symbols.len(), mark) }
}

pub fn answer(words: &mut [u32], lists: &mut Lists, mark: u8) -> Seen {
    unsafe { kuldveth_answer(words.as_mut_ptr(), words.len(), lists, mark) }
}

pub fn accept(words: &mut [u32], lists: &mut Lists) -> Seen {
    unsafe { kuldveth_accept(words.as_mut_ptr(), words.len(), lists) }
}

/// Makes a call that returns `Seen` on the tables.
pub fn call(words: &mut [u32], lists: &mut Lists, call: &Call) -> Seen {
    match call {
        Call::Start(counts) => start(words, lists, counts),
        Call::Offer(symbols, mark) => offer(words, lists, symbols, *mark),
        Call::Answer(mark) => answer(words, lists, *mark),
        Call::Accept => accept(words, lists),
        Call::Look => kuldveth::look(words, lists),
        Call::Emit(_) => panic!("emitting returns no Seen"),
    }
}

/// The same by the oracle.
pub fn oracle_call(words: &mut [u32], lists: &mut Lists, call: &Call) -> Seen {
    match call {
        Call::Start(counts) => oracle::start(words, lists, counts),
        Call::Offer(symbols, mark) => oracle::offer(words, lists, symbols, *mark),
        Call::Answer(mark) => oracle::answer(words, lists, *mark),
        Call::Accept => oracle::accept(words, lists),
        Call::Look => oracle::look(words, lists),
        Call::Emit(_) => panic!("emitting returns no Seen"),
    }
}

const GUARD: usize = 96;
const GUARD_WORD: u32 = 0xA5C3_0FE1;

/// The bytes of lists, and words around them that no call may write.
#[repr(C)]
struct Guarded {
    before: [u32; GUARD],
    lists: [u8; LISTS_BYTES],
    after: [u32; GUARD],
}

/// What a call returned and left, the lists as bytes.
pub struct Left {
    pub seen: Seen,
    pub words: Vec<u32>,
    pub lists: [u8; LISTS_BYTES],
}

impl Left {
    /// Whether every byte is one of such a `Seen` and such tables.
    pub fn is(&self, seen: &Seen, tables: &Tables) -> bool {
        raw_seen(self.seen) == of_seen(seen)
            && self.words == tables.words
            && self.lists == of_lists(&tables.lists)
    }

    pub fn tables(self) -> Tables {
        let (words, lists) = (self.words, lists_of(&self.lists));
        Tables { words, lists }
    }
}

/// Makes a call on copies of the tables between guard words, and panics if it writes these: what it returned and left.
fn between_guards<T>(
    tables: &Tables,
    name: &impl Debug,
    call: impl FnOnce(&mut [u32], &mut Lists) -> T,
) -> (T, Vec<u32>, [u8; LISTS_BYTES]) {
    let end = GUARD + tables.words.len();
    let mut words = vec![GUARD_WORD; end + GUARD];
    words[GUARD..end].copy_from_slice(&tables.words);
    let mut lent = Guarded {
        before: [GUARD_WORD; GUARD],
        lists: of_lists(&tables.lists),
        after: [GUARD_WORD; GUARD],
    };
    // Any bytes are lists, and these are aligned as the words before them.
    let lists = unsafe { &mut *lent.lists.as_mut_ptr().cast::<Lists>() };
    let returned = call(&mut words[GUARD..end], lists);
    let guards = [&words[..GUARD], &words[end..], &lent.before, &lent.after];
    let kept = |guard: &[u32]| guard.iter().all(|&word| word == GUARD_WORD);
    assert!(guards.into_iter().all(kept), "{name:?} wrote past an end");
    words.truncate(end);
    words.drain(..GUARD);
    (returned, words, lent.lists)
}

/// What the library makes of a call on copies of the tables; panics if it writes around them.
pub fn guarded(tables: &Tables, made: &Call) -> Left {
    let make = |words: &mut [u32], lists: &mut Lists| call(words, lists, made);
    let (seen, words, lists) = between_guards(tables, made, make);
    Left { seen, words, lists }
}

/// The verdict by the library on copies of the tables and the symbols; panics if it writes them or around them.
pub fn judged(tables: &Tables, symbols: &[u8]) -> Judged {
    let lent = symbols.to_vec();
    let judge = |words: &mut [u32], lists: &mut Lists| kuldveth::verdict(words, lists, &lent);
    let (judged, words, lists) = between_guards(tables, &"a verdict", judge);
    let stayed = words == tables.words && lists == of_lists(&tables.lists) && lent == symbols;
    assert!(stayed, "the verdict on {symbols:?} changed\n{tables:?}");
    judged
}
