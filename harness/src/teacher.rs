//! Runs of the oracle under a teacher that is always right, often wrong, or answers at random.

use crate::teaching::proposal;
use oracle::limits::{ROWS_MAX, ROW_WORDS};
use oracle::testing::compare::Tables;
use oracle::testing::random::Random;
use oracle::testing::target::{smallest_difference, Target};
use oracle::Lists;

/// A fresh run. `honest` is how many answers out of a hundred are the target's.
pub struct Taught {
    pub tables: Tables,
    target: Target,
    honest: usize,
}

impl Taught {
    /// Starts a run over rows full of rubbish.
    pub fn start(target: Target, honest: usize, rows: usize) -> Taught {
        let mut tables = Tables {
            words: vec![9; rows * ROW_WORDS],
            lists: Lists::zeroed(),
        };
        let seen = oracle::start(&mut tables.words, &mut tables.lists, target.counts());
        assert_eq!(seen.number, 0);
        Taught {
            tables,
            target,
            honest,
        }
    }

    /// A run of a random target.
    pub fn random(random: &mut Random) -> Taught {
        let target = Target::random(random);
        let honest = *random.pick(&[100, 100, 90, 50]);
        let rows = *random.pick(&[30, 100, 400]);
        Taught::start(target, honest, rows)
    }

    /// Answers the open question or offers a record; false when the run is over.
    pub fn step(&mut self, random: &mut Random) -> bool {
        if self.tables.lists.accepted == 1 {
            return false;
        }
        if self.tables.lists.asked != 0 {
            return self.answer(random);
        }
        let proposed = proposal(&self.tables);
        let smallest = smallest_difference(&self.target, &proposed);
        let tried = Target::random_record(self.target.counts(), random, 30);
        let differs = self.target.accepts(&tried) != proposed.accepts(&tried);
        let Tables { words, lists } = &mut self.tables;
        let record = match smallest {
            _ if differs || !random.percent(self.honest) => tried,
            Some(smallest) => smallest,
            None => return oracle::accept(words, lists).number == 0,
        };
        let mark = !proposed.accepts(&record) as u8;
        // A wrong mark may contradict a stored answer.
        matches!(oracle::offer(words, lists, &record, mark).number, 0 | 33)
    }

    fn answer(&mut self, random: &mut Random) -> bool {
        let Tables { words, lists } = &mut self.tables;
        let states = self.target.row_states(words, lists.used as usize, None);
        let truth = self.target.is_final(states[lists.asked as usize]);
        let mark = (truth == random.percent(self.honest)) as u8;
        oracle::answer(words, lists, mark).number == 0
    }

    /// Goes on to a proposal; none if the run is refused before. No row is asked twice.
    pub fn proposing(mut self, random: &mut Random, calls: usize) -> Option<Tables> {
        for _ in 0..calls {
            if !self.step(random) {
                break;
            }
        }
        for _ in 0..ROWS_MAX {
            if self.tables.lists.asked == 0 || !self.answer(random) {
                break;
            }
        }
        self.tables.lists.accepted = 0;
        (self.tables.lists.asked == 0).then_some(self.tables)
    }
}
