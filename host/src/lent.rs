//! What crosses to the library: field by field the structs of `crates/model/src/lib.rt`, a slice as pointer and length.
//! The functions require nothing of contents; pointers, lengths and aliasing are kept right by the borrows in `Run`.

use std::mem::size_of;

/// The version of these layouts and calls (§11).
pub const VERSION: u32 = 4;

/// Numbers in a row of the record table, and how many rows it may have (§2.1).
pub const WORDS_PER_ROW: usize = 6;
pub const MOST_ROWS: usize = 16_384;

/// The run's own lists (§2.2).
#[repr(C)]
#[derive(Clone, Debug, PartialEq, Eq)]
pub struct Lists {
    pub letters: u8,
    pub counts: [u8; 64],
    pub accepted: u8,
    pub used: u16,
    pub states: u16,
    pub s: [u16; 32],
    pub rules: u16,
    pub t: [u16; 256],
    pub contexts: u16,
    pub c: [u16; 289],
    pub hand: u16,
    pub asked: u16,
}

impl Lists {
    pub(crate) const fn zeroed() -> Lists {
        Lists {
            letters: 0,
            counts: [0; 64],
            accepted: 0,
            used: 0,
            states: 0,
            s: [0; 32],
            rules: 0,
            t: [0; 256],
            contexts: 0,
            c: [0; 289],
            hand: 0,
            asked: 0,
        }
    }
}

/// What a call tells (§3.3).
#[repr(C)]
pub(crate) struct Seen {
    pub number: u8,
    pub phase: u8,
    pub row: u16,
    pub states: u16,
    pub rules: u16,
    pub contexts: u16,
}

/// What emitting and loading tell (§3.7, §3.9).
#[repr(C)]
pub(crate) struct Emitted {
    pub number: u32,
    pub size: u32,
}

/// What the verdict call tells (§3.8).
#[repr(C)]
pub(crate) struct Judged {
    pub number: u8,
    pub outcome: u8,
    pub place: u16,
}

/// How many symbols, states and rules a list has (§6.3).
#[repr(C)]
pub(crate) struct ListSizes {
    pub number: u16,
    pub symbols: u16,
    pub states: u16,
    pub rules: u16,
}

/// One value of a list, if it is there (§6.3).
#[repr(C)]
pub(crate) struct Found {
    pub number: u16,
    pub found: u8,
    pub value: u8,
}

/// One rule of a list, if it is there (§6.3).
#[repr(C)]
pub(crate) struct ListRule {
    pub number: u8,
    pub found: u8,
    pub symbol: u8,
    pub children: u8,
    pub states: [u8; 4],
    pub target: u8,
}

// No struct has padding: each is as long as its fields together.
const _: () = assert!(size_of::<Lists>() == 2 + 64 + 2 * (2 + 32 + 1 + 256 + 1 + 289 + 2));
const _: () = assert!(size_of::<Seen>() == 2 + 2 * 4);
const _: () = assert!(size_of::<Emitted>() == 2 * 4);
const _: () = assert!(size_of::<Judged>() == 2 + 2);
const _: () = assert!(size_of::<ListSizes>() == 2 * 4);
const _: () = assert!(size_of::<Found>() == 2 + 2);
const _: () = assert!(size_of::<ListRule>() == 9);

extern "C" {
    pub(crate) fn kuldveth_version() -> u32;
    pub(crate) fn kuldveth_start(
        words: *mut u32,
        size: usize,
        lists: *mut Lists,
        counts: *const u8,
        letters: usize,
    ) -> Seen;
    pub(crate) fn kuldveth_offer(
        words: *mut u32,
        size: usize,
        lists: *mut Lists,
        symbols: *const u8,
        length: usize,
        mark: u8,
    ) -> Seen;
    pub(crate) fn kuldveth_answer(
        words: *mut u32,
        size: usize,
        lists: *mut Lists,
        mark: u8,
    ) -> Seen;
    pub(crate) fn kuldveth_accept(words: *mut u32, size: usize, lists: *mut Lists) -> Seen;
    pub(crate) fn kuldveth_look(words: *const u32, size: usize, lists: *const Lists) -> Seen;
    pub(crate) fn kuldveth_emit(
        words: *const u32,
        size: usize,
        lists: *const Lists,
        out: *mut u8,
        room: usize,
    ) -> Emitted;
    pub(crate) fn kuldveth_verdict(
        words: *const u32,
        size: usize,
        lists: *const Lists,
        symbols: *const u8,
        length: usize,
    ) -> Judged;
    pub(crate) fn kuldveth_load(bytes: *const u8, size: usize) -> Emitted;
    pub(crate) fn kuldveth_list_sizes(bytes: *const u8, size: usize) -> ListSizes;
    pub(crate) fn kuldveth_list_children(bytes: *const u8, size: usize, symbol: u8) -> Found;
    pub(crate) fn kuldveth_list_final(bytes: *const u8, size: usize, state: u8) -> Found;
    pub(crate) fn kuldveth_list_rule(bytes: *const u8, size: usize, k: u16) -> ListRule;
    pub(crate) fn kuldveth_list_target(
        bytes: *const u8,
        size: usize,
        symbol: u8,
        states: *const u8,
        length: usize,
    ) -> Found;
}
