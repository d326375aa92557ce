//! The structs that cross, to the byte (docs/SPECIFICATION.md, 2.2, 3.3, 3.7 and 3.8): one field behind the other,
//! the lowest byte of a number first, and no byte without a field.

use oracle::limits::{CONTEXTS_MAX, RULES_MAX, STATES_MAX, SYMBOLS_MAX};
use oracle::{Emitted, Judged, Lists, Seen};
use std::mem::size_of;

pub const LISTS_BYTES: usize = 1_232;
pub const SEEN_BYTES: usize = 10;
pub const EMITTED_BYTES: usize = 8;
pub const JUDGED_BYTES: usize = 4;

// The calls are lent these bytes as `Lists`.
const _: () = assert!(size_of::<Lists>() == LISTS_BYTES);

/// The bytes of lists.
pub fn of_lists(lists: &Lists) -> [u8; LISTS_BYTES] {
    let mut bytes = Vec::with_capacity(LISTS_BYTES);
    bytes.push(lists.letters);
    bytes.extend(lists.counts);
    bytes.push(lists.accepted);
    let mut put = |numbers: &[u16]| bytes.extend(numbers.iter().flat_map(|it| it.to_le_bytes()));
    put(&[lists.used, lists.states]);
    put(&lists.s);
    put(&[lists.rules]);
    put(&lists.t);
    put(&[lists.contexts]);
    put(&lists.c);
    put(&[lists.hand, lists.asked]);
    bytes.try_into().expect("every byte has a field")
}

/// The lists that bytes are.
pub fn lists_of(bytes: &[u8; LISTS_BYTES]) -> Lists {
    let (letters, rest) = (bytes[0], &bytes[1..]);
    let (counts, rest) = rest.split_first_chunk::<SYMBOLS_MAX>().expect("the counts");
    let (accepted, rest) = (rest[0], &rest[1..]);
    let mut numbers = rest.chunks_exact(2);
    let mut next = || {
        let number = numbers.next().and_then(|it| it.try_into().ok());
        u16::from_le_bytes(number.expect("a number"))
    };
    Lists {
        letters,
        counts: *counts,
        accepted,
        used: next(),
        states: next(),
        s: [(); STATES_MAX].map(|_| next()),
        rules: next(),
        t: [(); RULES_MAX].map(|_| next()),
        contexts: next(),
        c: [(); CONTEXTS_MAX].map(|_| next()),
        hand: next(),
        asked: next(),
    }
}

/// The bytes of what a call tells.
pub fn of_seen(seen: &Seen) -> [u8; SEEN_BYTES] {
    let mut bytes = vec![seen.number, seen.phase];
    let numbers = [seen.row, seen.states, seen.rules, seen.contexts];
    bytes.extend(numbers.iter().flat_map(|it| it.to_le_bytes()));
    bytes.try_into().expect("every byte has a field")
}

/// The bytes of what emitting and loading tell.
pub fn of_emitted(emitted: &Emitted) -> [u8; EMITTED_BYTES] {
    let numbers = [emitted.number, emitted.size].map(u32::to_le_bytes);
    let bytes = numbers.concat();
    bytes.try_into().expect("every byte has a field")
}

/// The bytes of what the verdict call tells.
pub fn of_judged(judged: &Judged) -> [u8; JUDGED_BYTES] {
    let [low, high] = judged.place.to_le_bytes();
    [judged.number, judged.outcome, low, high]
}

/// The bytes that a returned `Seen` has in memory.
pub fn raw_seen(seen: Seen) -> [u8; SEEN_BYTES] {
    unsafe { std::mem::transmute(seen) }
}

/// The bytes that a returned `Emitted` has in memory.
pub fn raw_emitted(emitted: Emitted) -> [u8; EMITTED_BYTES] {
    unsafe { std::mem::transmute(emitted) }
}

/// The bytes that a returned `Judged` has in memory.
pub fn raw_judged(judged: Judged) -> [u8; JUDGED_BYTES] {
    unsafe { std::mem::transmute(judged) }
}
