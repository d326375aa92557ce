//! Every byte of the lists: a taken start leaves the same ones whatever was there and on the stack, a refused one leaves all.

use harness::bytes::{lists_of, of_lists, LISTS_BYTES};
use harness::calls::guarded;
use harness::cases::compare::Met;
use oracle::limits::{ROWS_MAX, ROW_WORDS};
use oracle::testing::compare::{Call, Tables};
use oracle::testing::random::Random;
use std::hint::black_box;

const FILLERS: [u8; 4] = [0x00, 0x5A, 0xA5, 0xFF];

/// Tables of so many words, with each byte of the lists the same.
fn filled(size: usize, filler: u8) -> Tables {
    let words = vec![u32::from_le_bytes([filler; 4]); size];
    let lists = lists_of(&[filler; LISTS_BYTES]);
    Tables { words, lists }
}

/// Each filler for the lists with each for the stack.
fn fillers() -> impl Iterator<Item = (u8, u8)> {
    let with = |filler| FILLERS.map(|below| (filler, below));
    FILLERS.into_iter().flat_map(with)
}

/// Leaves such bytes where the frames of the next call will be.
#[inline(never)]
fn fill_stack(filler: u8) {
    black_box([filler; 1 << 16]);
}

fn start_bytes(size: usize, counts: &[u8], filler: u8, below: u8) -> [u8; LISTS_BYTES] {
    let tables = filled(size, filler);
    fill_stack(below);
    guarded(&tables, &Call::Start(counts.to_vec())).lists
}

#[test]
fn bytes_are_lists() {
    let mut random = Random::new(261);
    for _ in 0..1_000 {
        let bytes = [(); LISTS_BYTES].map(|_| random.bits() as u8);
        assert_eq!(of_lists(&lists_of(&bytes)), bytes);
    }
}

#[test]
fn a_taken_start_sets_every_byte() {
    for counts in [&[1, 0][..], &[4; 64], &[0]] {
        for size in [ROW_WORDS, 5 * ROW_WORDS, ROWS_MAX * ROW_WORDS] {
            let first = start_bytes(size, counts, 0, 0);
            for (filler, below) in fillers() {
                assert_eq!(start_bytes(size, counts, filler, below), first);
            }
        }
    }
}

#[test]
fn a_refused_start_leaves_every_byte() {
    for filler in FILLERS {
        for (size, counts) in [(7, &[1, 0][..]), (6, &[]), (6, &[5]), (6, &[0; 65])] {
            let left = start_bytes(size, counts, filler, !filler);
            assert_eq!(left, [filler; LISTS_BYTES]);
        }
    }
}

/// The worked run after each of them: every byte is the oracle's.
#[test]
fn a_run_over_any_bytes() {
    for filler in FILLERS {
        let (mut met, mut tables) = (Met::default(), filled(5 * ROW_WORDS, filler));
        let (offer, no) = (Call::Offer(vec![1, 0], 1), Call::Answer(0));
        let (start, accept) = (Call::Start(vec![1, 0]), Call::Accept);
        for call in [&start, &offer, &no, &offer, &no, &offer, &accept] {
            fill_stack(!filler);
            met.call(&mut tables, call);
        }
        met.at_least(1, [32]);
        assert_eq!((met.accepted, tables.lists.accepted), (1, 1));
    }
}
