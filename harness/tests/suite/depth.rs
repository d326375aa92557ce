//! Contexts as deep as a table can hold, filled on a stack of 4 MB.

use crate::compare;
use harness::lent::{Lent, ROWS_MAX};
use harness::probe::{self, Reply, FULL};
use harness::sound::chain;
use std::thread;

const STACK: usize = 4 << 20;

fn on_a_small_stack<T: Send + 'static>(call: impl FnOnce() -> T + Send + 'static) -> T {
    let thread = thread::Builder::new().stack_size(STACK).spawn(call);
    thread.unwrap().join().unwrap()
}

/// A chain of 16,383 rows: with row 0 every row of it is found again.
#[test]
fn deepest_context() {
    let mut lent = Lent::with_hole(&[1]);
    for row in 0..ROWS_MAX as u32 - 1 {
        lent.push(0, 0, [row, 0, 0, 0]);
    }
    let before = lent.words.clone();
    let (reply, words) = on_a_small_stack(move || probe::fill(&lent, 16_383, 0));
    let expected = Reply {
        code: 1,
        row: 16_383,
        used: 16_384,
    };
    assert_eq!(reply, expected);
    assert!(words == before);
}

/// A chain of 16,382 rows and a leaf: no row is left at the innermost place.
#[test]
fn deepest_context_without_room() {
    let lent = chain(ROWS_MAX - 2);
    let before = lent.words.clone();
    let (reply, words) = on_a_small_stack(move || probe::fill(&lent, 16_382, 16_383));
    assert_eq!(reply, FULL);
    assert!(words == before);
}

/// A chain and a leaf, and half of the table to add: all of it, or all but two rows, is added.
#[test]
fn half_the_table_added() {
    let lent = chain(8_191).with_rows(ROWS_MAX, 4);
    let reply = on_a_small_stack(move || compare::fill(&lent, 8_191, 8_192));
    assert_eq!((reply.code, reply.used), (1, 16_384));
    let lent = chain(8_192).with_rows(ROWS_MAX, 4);
    let reply = on_a_small_stack(move || compare::fill(&lent, 8_192, 8_193));
    assert_eq!(reply, FULL);
}
