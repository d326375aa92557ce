//! Emitting and loading: every proposal of a run written by both, with too little room, just enough and more; read again.

use super::compare::Met;
use crate::targets;
use crate::teaching::truthful;
use oracle::limits::ROW_WORDS;
use oracle::testing::compare::{Call, Tables};
use oracle::testing::random::Random;
use oracle::Lists;

/// Emits with each room that matters, and reads the list again.
pub fn try_rooms(tables: &Tables, met: &mut Met) {
    let (emitted, bytes) = met.emit_and_judge(tables);
    if emitted.number != 0 {
        met.emit(tables, 0);
        return;
    }
    let size = emitted.size as usize;
    assert!(bytes[size..].iter().all(|&byte| byte == 0xA5));
    for room in [0, size - 1] {
        let (short, left) = met.emit(tables, room);
        assert_eq!(short.number, 20);
        assert!(left.iter().all(|&byte| byte == 0xA5));
    }
    assert_eq!(met.emit(tables, size).1, bytes[..size]);
    let read = met.load(&bytes[..size]);
    assert_eq!((read.number, read.size), (0, tables.lists.rules as u32));
}

/// A random target learnt truthfully, emitted after every call.
pub fn random_run(random: &mut Random, met: &mut Met) {
    let states = random.within(1, 10);
    let letters = random.within(1, 12);
    let rules = random.within(states, 5 * states);
    let target = targets::random(random, states, letters, rules);
    let mut tables = Tables {
        words: vec![0; 1_500 * ROW_WORDS],
        lists: Lists::zeroed(),
    };
    met.call(&mut tables, &Call::Start(target.counts().to_vec()));
    for _ in 0..400 {
        try_rooms(&tables, met);
        if tables.lists.accepted == 1 {
            break;
        }
        let call = truthful(&target, &tables);
        met.call(&mut tables, &call);
    }
}
