//! The observation table: which row each transition becomes in each context.
//!
//! The spines of all contexts form one tree of rows with a hole, the hole at its root.
//! For one transition a single pass over that tree, from the hole up, finds the filled
//! row of each: contexts that share a spine share the work, deep contexts cost no walk
//! from the root, and nothing is looked up above a filled row that is not stored.

use crate::index::Key;
use crate::lent::Row;
use crate::limits::CONTEXTS_MAX;
use crate::table::{Records, UNKNOWN, YES};

/// Not stored. Row 0 is the hole, which no filled context is.
const ABSENT: Row = 0;

/// The place and row of the child with the hole, in a context other than the hole.
fn hole_child(records: &Records, context: Row) -> (usize, Row) {
    let mut children = records.children(context).enumerate();
    children
        .find(|&(_, child)| records.holed(child))
        .expect("a context has a hole")
}

/// The rows from a context's root down to the parent of its hole, each with the place
/// where the spine goes on.
pub fn spine(records: &Records, context: Row) -> Vec<(Row, usize)> {
    let mut path = Vec::new();
    let mut row = context;
    while row != 0 {
        let (place, child) = hole_child(records, row);
        path.push((row, place));
        row = child;
    }
    path
}

/// One row with a hole: its contents, where its hole lies, which step is below, and
/// where the steps that lie above it end.
#[derive(Clone, Copy)]
struct Step {
    key: Key,
    place: usize,
    below: usize,
    end: usize,
}

/// The rows with a hole at or below some contexts. Step 0 is the hole; every step is
/// followed by those above it, so that all of them can be skipped at once.
struct Spines {
    steps: Vec<Step>,
    /// The step of each context.
    tops: Vec<usize>,
}

impl Spines {
    fn below(records: &Records, contexts: &[Row]) -> Spines {
        let rows = rows_below(records, contexts);
        // How many steps a row stands for: itself and those above it.
        let mut sizes = vec![1; records.used()];
        for &(row, _, child) in rows.iter().rev() {
            sizes[child as usize] += sizes[row as usize];
        }
        let hole = Step {
            key: Key::HOLE,
            place: 0,
            below: 0,
            end: rows.len() + 1,
        };
        let mut steps = vec![hole; rows.len() + 1];
        let mut step_of = vec![0; records.used()];
        let mut free = vec![1; records.used()];
        for &(row, place, child) in &rows {
            let step = free[child as usize];
            let end = step + sizes[row as usize];
            steps[step] = Step {
                key: records.key(row),
                place,
                below: step_of[child as usize],
                end,
            };
            free[child as usize] = end;
            free[row as usize] = step + 1;
            step_of[row as usize] = step;
        }
        let tops = contexts.iter().map(|&context| step_of[context as usize]);
        Spines {
            tops: tops.collect(),
            steps,
        }
    }

    /// The filled row of every step, for one record.
    fn fill(&self, records: &Records, record: Row, filled: &mut [Row]) {
        filled[0] = record;
        let mut at = 1;
        while at < self.steps.len() {
            let step = &self.steps[at];
            let key = step.key.with_child(step.place, filled[step.below]);
            match records.find(key) {
                Some(row) => {
                    filled[at] = row;
                    at += 1;
                }
                None => {
                    filled[at..step.end].fill(ABSENT);
                    at = step.end;
                }
            }
        }
    }

    /// Room for the filled rows of one record.
    fn room(&self) -> Vec<Row> {
        vec![ABSENT; self.steps.len()]
    }
}

/// The rows other than the hole at or below some contexts, in row order, each with the
/// place and row of its child with the hole.
fn rows_below(records: &Records, contexts: &[Row]) -> Vec<(Row, usize, Row)> {
    let mut below = vec![false; records.used()];
    below[0] = true;
    for &context in contexts {
        let mut row = context;
        while !below[row as usize] {
            below[row as usize] = true;
            row = hole_child(records, row).1;
        }
    }
    let rows = (1..records.used() as Row).filter(|&row| below[row as usize]);
    rows.map(|row| {
        let (place, child) = hole_child(records, row);
        (row, place, child)
    })
    .collect()
}

/// A set of context positions.
type Positions = [u64; CONTEXTS_MAX.div_ceil(64)];

/// A transition's row: the positions in C where the answer is yes, and where it is no.
#[derive(Clone, PartialEq, Eq)]
pub struct Answers {
    yes: Positions,
    no: Positions,
}

impl Answers {
    /// Whether some answer is a yes: a sign of life.
    pub fn any_yes(&self) -> bool {
        self.yes.iter().any(|&bits| bits != 0)
    }

    /// Whether both are known and unequal somewhere.
    pub fn differ(&self, other: &Answers) -> bool {
        (0..self.yes.len())
            .any(|i| self.yes[i] & other.no[i] != 0 || self.no[i] & other.yes[i] != 0)
    }
}

/// For each transition and each context the filled row, or none if it is not stored.
pub struct Observations {
    filled: Vec<[Row; CONTEXTS_MAX]>,
    contexts: usize,
}

impl Observations {
    pub fn of(records: &Records, transitions: &[Row], contexts: &[Row]) -> Observations {
        let mut observations = Observations {
            filled: Vec::with_capacity(transitions.len() + 1),
            contexts: contexts.len(),
        };
        observations.add_transitions(records, transitions, contexts);
        observations
    }

    /// Observes more transitions at all contexts.
    pub fn add_transitions(&mut self, records: &Records, transitions: &[Row], contexts: &[Row]) {
        let spines = Spines::below(records, contexts);
        let mut filled = spines.room();
        for &transition in transitions {
            spines.fill(records, transition, &mut filled);
            let mut row = [ABSENT; CONTEXTS_MAX];
            for (place, &top) in row.iter_mut().zip(&spines.tops) {
                *place = filled[top];
            }
            self.filled.push(row);
        }
    }

    /// Observes one more context under the transitions so far.
    pub fn add_context(&mut self, records: &Records, transitions: &[Row], context: Row) {
        let spines = Spines::below(records, &[context]);
        let mut filled = spines.room();
        for (row, &transition) in self.filled.iter_mut().zip(transitions) {
            spines.fill(records, transition, &mut filled);
            row[self.contexts] = filled[spines.tops[0]];
        }
        self.contexts += 1;
    }

    /// The answers known of one transition.
    pub fn answers(&self, records: &Records, transition: usize) -> Answers {
        let mut answers = Answers {
            yes: Positions::default(),
            no: Positions::default(),
        };
        let filled = &self.filled[transition][..self.contexts];
        for (position, &row) in filled.iter().enumerate() {
            let bit = 1 << (position % 64);
            match records.answer(row) {
                UNKNOWN => {}
                YES => answers.yes[position / 64] |= bit,
                _ => answers.no[position / 64] |= bit,
            }
        }
        answers
    }

    /// The first missing answer: transitions in order, contexts in order for each (4.2).
    pub fn first_unknown(&self, records: &Records) -> Option<(usize, usize)> {
        self.filled.iter().enumerate().find_map(|(t, filled)| {
            let mut filled = filled[..self.contexts].iter();
            // Row 0 stands for what is not stored, and its answer is 0 as well.
            let c = filled.position(|&row| records.answer(row) == UNKNOWN)?;
            Some((t, c))
        })
    }
}
