//! Marks against what was said in a run (docs/SPECIFICATION.md, 5.3): 33 comes before 32, and this is all that the order changes.

use super::compare::{Call, Tables};
use super::random::Random;
use super::reading::{proposal, symbols};
use super::target::{smallest_difference, Target};
use super::verdicts::{as_listed, beside_offer, Verdicts};
use crate::lent::{Lists, Seen};
use crate::limits::ROW_WORDS;
use std::collections::HashMap;

/// How many offers to a proposal got which number.
#[derive(Debug, Default)]
pub struct Marks {
    /// 33, where 32 before 33 would have given 32.
    pub changed: usize,
    /// 33 in either order.
    pub contradicted: usize,
    /// 32 in either order.
    pub agreed: usize,
    /// Neither.
    pub others: usize,
    /// The verdicts on the records that got 32.
    pub verdicts: Verdicts,
}

/// A run, and what its taken calls said of records, which are known by their symbols.
struct Run<Make> {
    tables: Tables,
    said: HashMap<Vec<u8>, u8>,
    make: Make,
}

impl<Make: FnMut(&mut Tables, &Call) -> Seen> Run<Make> {
    /// Makes a call about a record, and notes what it said if it is taken.
    fn say(&mut self, record: Option<Vec<u8>>, mark: u8, call: &Call) -> bool {
        let taken = (self.make)(&mut self.tables, call).number == 0;
        if let (true, Some(record)) = (taken, record) {
            self.said.insert(record, mark);
        }
        taken
    }

    /// Answers the open question; false if the answer is refused.
    fn answer(&mut self, target: &Target, honest: bool) -> bool {
        let Tables { words, lists } = &self.tables;
        let states = target.row_states(words, lists.used as usize, None);
        let mark = (target.is_final(states[lists.asked as usize]) == honest) as u8;
        let record = symbols(words, lists, lists.asked);
        self.say(record, mark, &Call::Answer(mark))
    }

    /// Offers a record to a copy of the tables. It gets 33 exactly if the opposite was said of it. If 32 came first, the number
    /// would be the same, or 32 in place of 33. The verdict asked for alone is the one that the offer is tested against.
    fn check(&mut self, proposed: &Target, record: &[u8], mark: u8, marks: &mut Marks) {
        let call = Call::Offer(record.to_vec(), mark);
        let now = (self.make)(&mut self.tables.clone(), &call).number;
        let Tables { words, lists } = &self.tables;
        let judged = as_listed(words, lists, proposed, record);
        beside_offer(lists, judged, mark, now);
        let opposite = self.said.get(record) == Some(&(1 - mark));
        let same = proposed.accepts(record) == (mark == 1);
        assert_eq!(now == 33, opposite, "{call:?} on\n{:?}", self.tables);
        let before = match (same, opposite) {
            (true, _) => 32,
            (false, true) => 33,
            (false, false) => now,
        };
        match (before, now) {
            (32, 33) => marks.changed += 1,
            (33, 33) => marks.contradicted += 1,
            (32, 32) => {
                marks.agreed += 1;
                marks.verdicts.count(judged);
            }
            _ => {
                assert_eq!(before, now, "{call:?} on\n{:?}", self.tables);
                assert_ne!(now, 32, "{call:?} on\n{:?}", self.tables);
                marks.others += 1;
            }
        }
    }

    /// Offers some of the records that were spoken of, and a few others, each with both marks.
    fn check_some(&mut self, proposed: &Target, random: &mut Random, marks: &mut Marks) {
        let mut records: Vec<Vec<u8>> = self.said.keys().cloned().collect();
        records.sort();
        let mut some: Vec<Vec<u8>> = (0..6.min(records.len()))
            .map(|_| random.pick(&records).clone())
            .collect();
        some.extend((0..3).map(|_| Target::random_record(proposed.counts(), random, 8)));
        for record in some {
            for mark in [0, 1] {
                self.check(proposed, &record, mark, marks);
            }
        }
    }
}

/// A run under a teacher that is always right, or not. The offers are checked at every proposal.
pub fn random_run(
    random: &mut Random,
    calls: usize,
    marks: &mut Marks,
    mut make: impl FnMut(&mut Tables, &Call) -> Seen,
) {
    let target = Target::random(random);
    let honest = *random.pick(&[100, 90, 50]);
    let mut tables = Tables {
        words: vec![9; *random.pick(&[20, 60, 200]) * ROW_WORDS],
        lists: Lists::zeroed(),
    };
    make(&mut tables, &Call::Start(target.counts().to_vec()));
    let mut run = Run {
        tables,
        said: HashMap::new(),
        make,
    };
    for _ in 0..calls {
        let right = random.percent(honest);
        if run.tables.lists.asked != 0 {
            if !run.answer(&target, right) {
                break;
            }
            continue;
        }
        let proposed = proposal(&run.tables.words, &run.tables.lists);
        run.check_some(&proposed, random, marks);
        let record = match smallest_difference(&target, &proposed) {
            Some(record) if right => record,
            _ => Target::random_record(target.counts(), random, 8),
        };
        let mark = !proposed.accepts(&record) as u8;
        let call = Call::Offer(record.clone(), mark);
        run.say(Some(record), mark, &call);
    }
}
