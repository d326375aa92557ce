//! The calls that `crates/kuldveth` exports, in the oracle's types: field by field they are those of
//! `crates/model/src/lib.rt`.

use oracle::{Emitted, Found, Judged, ListRule, ListSizes, Lists, Seen};

// A slice crosses as a pointer and a length. The functions require nothing of what is lent.
extern "C" {
    fn kuldveth_version() -> u32;
    fn kuldveth_look(words: *const u32, size: usize, lists: *const Lists) -> Seen;
    fn kuldveth_emit(
        words: *const u32,
        size: usize,
        lists: *const Lists,
        out: *mut u8,
        room: usize,
    ) -> Emitted;
    fn kuldveth_verdict(
        words: *const u32,
        size: usize,
        lists: *const Lists,
        symbols: *const u8,
        length: usize,
    ) -> Judged;
    fn kuldveth_load(bytes: *const u8, size: usize) -> Emitted;
    fn kuldveth_list_sizes(bytes: *const u8, size: usize) -> ListSizes;
    fn kuldveth_list_children(bytes: *const u8, size: usize, symbol: u8) -> Found;
    fn kuldveth_list_final(bytes: *const u8, size: usize, state: u8) -> Found;
    fn kuldveth_list_rule(bytes: *const u8, size: usize, k: u16) -> ListRule;
    fn kuldveth_list_target(
        bytes: *const u8,
        size: usize,
        symbol: u8,
        states: *const u8,
        count: usize,
    ) -> Found;
}

/// The version of the library that is linked.
pub fn version() -> u32 {
    unsafe { kuldveth_version() }
}

pub fn look(words: &[u32], lists: &Lists) -> Seen {
    unsafe { kuldveth_look(words.as_ptr(), words.len(), lists) }
}

pub fn emit(words: &[u32], lists: &Lists, out: &mut [u8]) -> Emitted {
    unsafe {
        kuldveth_emit(
            words.as_ptr(),
            words.len(),
            lists,
            out.as_mut_ptr(),
            out.len(),
        )
    }
}

pub fn verdict(words: &[u32], lists: &Lists, symbols: &[u8]) -> Judged {
    let (first, length) = (symbols.as_ptr(), symbols.len());
    unsafe { kuldveth_verdict(words.as_ptr(), words.len(), lists, first, length) }
}

pub fn load(bytes: &[u8]) -> Emitted {
    unsafe { kuldveth_load(bytes.as_ptr(), bytes.len()) }
}

pub fn list_sizes(bytes: &[u8]) -> ListSizes {
    unsafe { kuldveth_list_sizes(bytes.as_ptr(), bytes.len()) }
}

pub fn list_children(bytes: &[u8], symbol: u8) -> Found {
    unsafe { kuldveth_list_children(bytes.as_ptr(), bytes.len(), symbol) }
}

pub fn list_final(bytes: &[u8], state: u8) -> Found {
    unsafe { kuldveth_list_final(bytes.as_ptr(), bytes.len(), state) }
}

pub fn list_rule(bytes: &[u8], k: u16) -> ListRule {
    unsafe { kuldveth_list_rule(bytes.as_ptr(), bytes.len(), k) }
}

pub fn list_target(bytes: &[u8], symbol: u8, states: &[u8]) -> Found {
    let (first, count) = (states.as_ptr(), states.len());
    unsafe { kuldveth_list_target(bytes.as_ptr(), bytes.len(), symbol, first, count) }
}
