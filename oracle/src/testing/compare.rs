//! The fast learner against the naive one: every returned value, word, list and byte.

use super::naive;
use super::shrink::{smaller, smallest};
use super::verdicts::beside_offer;
use crate::calls;
use crate::lent::{Emitted, Judged, Lists, Seen};
use crate::limits::ROW_WORDS;
use std::fmt;

/// Lent tables.
#[derive(Clone, PartialEq, Eq)]
pub struct Tables {
    pub words: Vec<u32>,
    pub lists: Lists,
}

/// A call with its input; emitting with the room of the output.
#[derive(Clone, Debug)]
pub enum Call {
    Start(Vec<u8>),
    Offer(Vec<u8>, u8),
    Answer(u8),
    Accept,
    Look,
    Emit(usize),
}

/// All that a call returns and leaves.
#[derive(PartialEq, Eq)]
pub struct Outcome {
    pub seen: Seen,
    pub emitted: Emitted,
    pub out: Vec<u8>,
    pub tables: Tables,
}

/// Rows that a printed table shows.
const ROWS_PRINTED: usize = 100;

impl fmt::Debug for Tables {
    fn fmt(&self, f: &mut fmt::Formatter) -> fmt::Result {
        let lists = &self.lists;
        writeln!(f, "{} words lent, used {}", self.words.len(), lists.used)?;
        let rows = self.words.chunks(ROW_WORDS).enumerate();
        for (row, words) in rows.take((lists.used as usize + 1).min(ROWS_PRINTED)) {
            writeln!(f, "  row {row}: {words:?}")?;
        }
        let part = |all: &[u16], end: usize| all[..end.min(all.len())].to_vec();
        let letters = (lists.letters as usize).min(lists.counts.len());
        writeln!(
            f,
            "  letters {} counts {:?}",
            lists.letters,
            &lists.counts[..letters]
        )?;
        writeln!(
            f,
            "  S {}: {:?}",
            lists.states,
            part(&lists.s, lists.states as usize)
        )?;
        writeln!(
            f,
            "  T {}: {:?}",
            lists.rules,
            part(&lists.t, lists.rules as usize)
        )?;
        writeln!(
            f,
            "  C {}: {:?}",
            lists.contexts,
            part(&lists.c, lists.contexts as usize)
        )?;
        write!(
            f,
            "  hand {} asked {} accepted {}",
            lists.hand, lists.asked, lists.accepted
        )
    }
}

impl fmt::Debug for Outcome {
    fn fmt(&self, f: &mut fmt::Formatter) -> fmt::Result {
        write!(
            f,
            "{:?} {:?} {:?}\n{:?}",
            self.seen, self.emitted, self.out, self.tables
        )
    }
}

/// What the fast learner makes of a call.
pub fn fast(tables: &Tables, call: &Call) -> Outcome {
    let Tables {
        mut words,
        mut lists,
    } = tables.clone();
    let (mut out, mut emitted) = (Vec::new(), Emitted::default());
    let seen = match call {
        Call::Start(counts) => calls::start(&mut words, &mut lists, counts),
        Call::Offer(symbols, mark) => calls::offer(&mut words, &mut lists, symbols, *mark),
        Call::Answer(mark) => calls::answer(&mut words, &mut lists, *mark),
        Call::Accept => calls::accept(&mut words, &mut lists),
        Call::Look => calls::look(&words, &lists),
        Call::Emit(room) => {
            out = vec![0xA5; *room];
            emitted = calls::emit(&words, &lists, &mut out);
            Seen::default()
        }
    };
    let tables = Tables { words, lists };
    Outcome {
        seen,
        emitted,
        out,
        tables,
    }
}

/// What the naive learner makes of a call.
pub fn slow(tables: &Tables, call: &Call) -> Outcome {
    let Tables {
        mut words,
        mut lists,
    } = tables.clone();
    let (mut out, mut emitted) = (Vec::new(), Emitted::default());
    let seen = match call {
        Call::Start(counts) => naive::start(&mut words, &mut lists, counts),
        Call::Offer(symbols, mark) => naive::offer(&mut words, &mut lists, symbols, *mark),
        Call::Answer(mark) => naive::answer(&mut words, &mut lists, *mark),
        Call::Accept => naive::accept(&mut words, &mut lists),
        Call::Look => naive::look(&words, &lists),
        Call::Emit(room) => {
            out = vec![0xA5; *room];
            emitted = naive::emit(&words, &lists, &mut out);
            Seen::default()
        }
    };
    let tables = Tables { words, lists };
    Outcome {
        seen,
        emitted,
        out,
        tables,
    }
}

/// Makes the call with both learners and leaves the tables as it left them. Panics with
/// the smallest input found if they differ in anything. The verdict on an offered record is
/// the same by both as well, and fits what the offer gets.
pub fn agree(tables: &mut Tables, call: &Call) -> Seen {
    let outcome = fast(tables, call);
    if outcome != slow(tables, call) {
        let differ = |(tables, call): &(Tables, Call)| fast(tables, call) != slow(tables, call);
        let (tables, call) = smallest((tables.clone(), call.clone()), smaller_calls, differ);
        panic!(
            "the learners differ on {call:?} over\n{tables:?}\nfast: {:?}\nnaive: {:?}",
            fast(&tables, &call),
            slow(&tables, &call)
        );
    }
    if let Call::Offer(symbols, mark) = call {
        let judged = judge(tables, symbols);
        beside_offer(&tables.lists, judged, *mark, outcome.seen.number);
    }
    *tables = outcome.tables;
    outcome.seen
}

/// A call with one part less, of the tables or of an offered record.
fn smaller_calls((tables, call): &(Tables, Call)) -> Vec<(Tables, Call)> {
    let symbols = match call {
        Call::Offer(symbols, _) => &symbols[..],
        _ => &[],
    };
    let with = |symbols: Vec<u8>| match call {
        Call::Offer(_, mark) => Call::Offer(symbols, *mark),
        other => other.clone(),
    };
    let parts = smaller(tables, symbols).into_iter();
    parts
        .map(|(tables, symbols)| (tables, with(symbols)))
        .collect()
}

/// The verdict on a record by both, the fast learner first.
fn verdicts(tables: &Tables, symbols: &[u8]) -> (Judged, Judged) {
    let Tables { words, lists } = tables;
    (
        calls::verdict(words, lists, symbols),
        naive::verdict(words, lists, symbols),
    )
}

/// The verdict on a listed record, of the right form or not, by both learners. Panics with
/// the smallest input found if they differ.
pub fn judge(tables: &Tables, symbols: &[u8]) -> Judged {
    let (judged, naive) = verdicts(tables, symbols);
    if judged != naive {
        let (tables, symbols) = smallest(
            (tables.clone(), symbols.to_vec()),
            |(tables, symbols)| smaller(tables, symbols),
            |(tables, symbols)| {
                let (fast, naive) = verdicts(tables, symbols);
                fast != naive
            },
        );
        let both = verdicts(&tables, &symbols);
        panic!("the verdicts on {symbols:?} differ: {both:?} over\n{tables:?}");
    }
    judged
}
