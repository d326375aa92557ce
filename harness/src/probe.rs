//! The functions over the record table as `crates/probe` exports them. Each lent slice stands between guard
//! elements, which no call may touch.

use crate::lent::Lent;

/// What adding rows came to: code 0 rows ran out, 1 a row, 2 refused.
#[repr(C)]
#[derive(Clone, Copy, Debug, PartialEq, Eq)]
pub struct Reply {
    pub code: u8,
    pub row: u16,
    pub used: u16,
}

pub const FULL: Reply = Reply {
    code: 0,
    row: 0,
    used: 0,
};

pub const REFUSED: Reply = Reply {
    code: 2,
    row: 0,
    used: 0,
};

// A slice crosses as a pointer and a length. The functions require nothing of what is lent.
#[rustfmt::skip]
extern "C" {
    fn probe_fault(counts: *const u8, letters: usize, symbols: *const u8, length: usize) -> u8;
    fn probe_pass(words: *const u32, size: usize, counts: *const u8, letters: usize, used: u16, marks: *mut u16, room: usize) -> bool;
    fn probe_find(words: *const u32, size: usize, counts: *const u8, letters: usize, used: u16, symbol: u32, k0: u32, k1: u32, k2: u32, k3: u32) -> u16;
    fn probe_fill(words: *mut u32, size: usize, counts: *const u8, letters: usize, used: u16, context: u16, with: u16) -> Reply;
    fn probe_store(words: *mut u32, size: usize, counts: *const u8, letters: usize, used: u16, symbols: *const u8, length: usize) -> Reply;
    fn probe_known(words: *const u32, size: usize, counts: *const u8, letters: usize, used: u16, symbols: *const u8, length: usize) -> u16;
}

pub fn fault(counts: &[u8], symbols: &[u8]) -> u8 {
    unsafe {
        probe_fault(
            counts.as_ptr(),
            counts.len(),
            symbols.as_ptr(),
            symbols.len(),
        )
    }
}

/// T1; where it holds and `marks` has room for every used row, it gets the places of holes.
pub fn pass_into(words: &[u32], counts: &[u8], used: u16, marks: &mut [u16]) -> bool {
    unsafe {
        probe_pass(
            words.as_ptr(),
            words.len(),
            counts.as_ptr(),
            counts.len(),
            used,
            marks.as_mut_ptr(),
            marks.len(),
        )
    }
}

/// The places of holes of the used rows, unless T1 fails.
pub fn pass(lent: &Lent) -> Option<Vec<u16>> {
    let used = lent.used as usize;
    let mut marks = vec![u16::from(GUARD_BYTE); used + 2 * GUARDS];
    let inner = &mut marks[GUARDS..GUARDS + used];
    let passed = pass_into(&lent.words, &lent.counts, lent.used, inner);
    let (first, last) = (&marks[..GUARDS], &marks[GUARDS + used..]);
    assert!([first, last]
        .concat()
        .iter()
        .all(|&mark| mark == u16::from(GUARD_BYTE)));
    passed.then(|| marks[GUARDS..GUARDS + used].to_vec())
}

pub fn find(lent: &Lent, symbol: u32, places: [u32; 4]) -> u16 {
    let [k0, k1, k2, k3] = places;
    unsafe {
        probe_find(
            lent.words.as_ptr(),
            lent.words.len(),
            lent.counts.as_ptr(),
            lent.counts.len(),
            lent.used,
            symbol,
            k0,
            k1,
            k2,
            k3,
        )
    }
}

pub fn fill_in(words: &mut [u32], counts: &[u8], used: u16, context: u16, with: u16) -> Reply {
    unsafe {
        probe_fill(
            words.as_mut_ptr(),
            words.len(),
            counts.as_ptr(),
            counts.len(),
            used,
            context,
            with,
        )
    }
}

/// A context filled; the reply and the words afterwards.
pub fn fill(lent: &Lent, context: u16, with: u16) -> (Reply, Vec<u32>) {
    between_guards(lent, |words| {
        fill_in(words, &lent.counts, lent.used, context, with)
    })
}

pub fn store_in(words: &mut [u32], counts: &[u8], used: u16, symbols: &[u8]) -> Reply {
    unsafe {
        probe_store(
            words.as_mut_ptr(),
            words.len(),
            counts.as_ptr(),
            counts.len(),
            used,
            symbols.as_ptr(),
            symbols.len(),
        )
    }
}

/// A listed record stored; the reply and the words afterwards.
pub fn store(lent: &Lent, symbols: &[u8]) -> (Reply, Vec<u32>) {
    between_guards(lent, |words| {
        store_in(words, &lent.counts, lent.used, symbols)
    })
}

pub fn known(lent: &Lent, symbols: &[u8]) -> u16 {
    unsafe {
        probe_known(
            lent.words.as_ptr(),
            lent.words.len(),
            lent.counts.as_ptr(),
            lent.counts.len(),
            lent.used,
            symbols.as_ptr(),
            symbols.len(),
        )
    }
}

const GUARDS: usize = 8;
const GUARD_BYTE: u8 = 0xA5;
const GUARD_WORD: u32 = 0xA5A5_A5A5;

/// Runs a call on a copy of the words that stands between guard words.
fn between_guards(lent: &Lent, call: impl FnOnce(&mut [u32]) -> Reply) -> (Reply, Vec<u32>) {
    let size = lent.words.len();
    let mut guarded = vec![GUARD_WORD; size + 2 * GUARDS];
    guarded[GUARDS..GUARDS + size].copy_from_slice(&lent.words);
    let reply = call(&mut guarded[GUARDS..GUARDS + size]);
    let (first, last) = (&guarded[..GUARDS], &guarded[GUARDS + size..]);
    assert!([first, last]
        .concat()
        .iter()
        .all(|&word| word == GUARD_WORD));
    (reply, guarded[GUARDS..GUARDS + size].to_vec())
}
