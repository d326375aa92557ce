//! One look by both.

use harness::bytes::{of_seen, raw_seen};
use harness::kuldveth;
use oracle::testing::compare::Tables;
use oracle::{Seen, ACCEPTED, ASKING, PROPOSING};

/// What looking tells by both; what was lent stays as it was.
pub fn look(tables: &Tables) -> Seen {
    let before = tables.clone();
    let seen = kuldveth::look(&tables.words, &tables.lists);
    let expected = oracle::look(&before.words, &before.lists);
    assert_eq!(seen, expected, "library and oracle differ on\n{before:?}");
    assert_eq!(raw_seen(seen), of_seen(&expected), "looking at\n{before:?}");
    assert!(*tables == before, "looking changed\n{before:?}");
    seen
}

/// How many tables of each sort were looked at, to know that a test reaches them.
#[derive(Debug, Default)]
pub struct Met {
    pub proposing: usize,
    pub asking: usize,
    pub in_hand: usize,
    pub accepted: usize,
    pub unsound: usize,
}

impl Met {
    pub fn look(&mut self, tables: &Tables) -> Seen {
        let seen = look(tables);
        match (seen.number, seen.phase) {
            (0, PROPOSING) => self.proposing += 1,
            (0, ASKING) if tables.lists.hand != 0 => self.in_hand += 1,
            (0, ASKING) => self.asking += 1,
            (0, ACCEPTED) => self.accepted += 1,
            (30, _) => self.unsound += 1,
            (number, phase) => panic!("refused with {number} in phase {phase}"),
        }
        seen
    }

    /// Panics if some sort was met fewer times.
    pub fn at_least(&self, sound: usize, unsound: usize) {
        let least = [self.proposing, self.asking, self.in_hand, self.accepted];
        let enough = least.iter().all(|&met| met >= sound) && self.unsound >= unsound;
        assert!(enough, "{self:?}");
    }
}
