//! The calls of the verified learner for Rust hosts. `Run` owns the tables that the calls are lent; each method is one
//! call of `docs/SPECIFICATION.md`, §3, and a refusal changes nothing. `List` shows an emitted automaton over its bytes.

mod lent;
mod list;
mod refusal;

pub use lent::{Lists, MOST_ROWS, VERSION, WORDS_PER_ROW};
pub use list::{List, Rule, Sizes};
pub use refusal::Refusal;

use lent::{
    kuldveth_accept, kuldveth_answer, kuldveth_emit, kuldveth_load, kuldveth_look, kuldveth_offer,
    kuldveth_start, kuldveth_verdict, kuldveth_version, Emitted, Judged, Seen,
};

/// The version of the library that is linked (§11).
pub fn version() -> u32 {
    unsafe { kuldveth_version() }
}

/// Whether the library that is linked has the layouts and calls of this crate. If not, make no other call.
pub fn fits() -> bool {
    version() == VERSION
}

/// What a call that was taken tells: the phase and the sizes of the automaton that stands behind it.
#[derive(Clone, Copy, Debug, PartialEq, Eq)]
pub struct Told {
    pub phase: Phase,
    pub states: u16,
    pub rules: u16,
    pub contexts: u16,
}

/// Where a run stands (§3.1).
#[derive(Clone, Copy, Debug, PartialEq, Eq)]
pub enum Phase {
    /// An automaton is proposed: offers and acceptance are taken.
    Proposing,
    /// The record of a row is asked for: an answer is taken.
    Asking { row: u16 },
    /// The proposal was accepted.
    Accepted,
}

/// What the proposed automaton says of a record (§1.4).
#[derive(Clone, Copy, Debug, PartialEq, Eq)]
pub enum Verdict {
    /// The root got a final state.
    Accepted,
    /// The root got a state that is not final.
    NotFinal,
    /// The root got no state. The leftmost innermost symbol that found no rule is at this place of the record, from 0.
    NoRule(u16),
}

/// A run with its record table and its lists.
pub struct Run {
    words: Vec<u32>,
    lists: Lists,
}

impl Run {
    /// Starts a run with room for `rows` rows (1 to `MOST_ROWS`), over symbols with these child counts. No more than one
    /// row beyond `MOST_ROWS` is allocated; the call refuses that with 18.
    pub fn start(rows: usize, counts: &[u8]) -> Result<(Run, Told), Refusal> {
        let mut run = Run {
            words: vec![0; rows.min(MOST_ROWS + 1) * WORDS_PER_ROW],
            lists: Lists::zeroed(),
        };
        let seen = unsafe {
            kuldveth_start(
                run.words.as_mut_ptr(),
                run.words.len(),
                &mut run.lists,
                counts.as_ptr(),
                counts.len(),
            )
        };
        told(seen).map(|told| (run, told))
    }

    /// Offers a record, children before parent, with the archive's word on it.
    pub fn offer(&mut self, symbols: &[u8], kept: bool) -> Result<Told, Refusal> {
        let (words, size) = (self.words.as_mut_ptr(), self.words.len());
        let (list, length) = (symbols.as_ptr(), symbols.len());
        told(unsafe { kuldveth_offer(words, size, &mut self.lists, list, length, kept as u8) })
    }

    /// Answers the open question.
    pub fn answer(&mut self, kept: bool) -> Result<Told, Refusal> {
        let (words, size) = (self.words.as_mut_ptr(), self.words.len());
        told(unsafe { kuldveth_answer(words, size, &mut self.lists, kept as u8) })
    }

    /// Accepts the proposal.
    pub fn accept(&mut self) -> Result<Told, Refusal> {
        let (words, size) = (self.words.as_mut_ptr(), self.words.len());
        told(unsafe { kuldveth_accept(words, size, &mut self.lists) })
    }

    /// Looks at the run.
    pub fn look(&self) -> Result<Told, Refusal> {
        told(unsafe { kuldveth_look(self.words.as_ptr(), self.words.len(), &self.lists) })
    }

    /// The bytes of the proposed automaton (§6.1).
    pub fn emit(&self) -> Result<Vec<u8>, Refusal> {
        let mut out = vec![0; MOST_LIST_BYTES];
        let (words, size) = (self.words.as_ptr(), self.words.len());
        let (bytes, room) = (out.as_mut_ptr(), out.len());
        let written = sized(unsafe { kuldveth_emit(words, size, &self.lists, bytes, room) })?;
        out.truncate(written);
        Ok(out)
    }

    /// The verdict on a record, children before parent (§3.8). It is the one that an offer is tested against.
    pub fn verdict(&self, symbols: &[u8]) -> Result<Verdict, Refusal> {
        let (words, size) = (self.words.as_ptr(), self.words.len());
        let (list, length) = (symbols.as_ptr(), symbols.len());
        judged(unsafe { kuldveth_verdict(words, size, &self.lists, list, length) })
    }

    /// The record table: six numbers a row, children by row number (§2.1).
    pub fn words(&self) -> &[u32] {
        &self.words
    }
}

/// The longest list: 64 symbols, 32 states and 256 rules of four children.
const MOST_LIST_BYTES: usize = 12 + 64 + 32 + 256 * 12;

/// How many rules a list has, or that its bytes are no list.
pub fn load(bytes: &[u8]) -> Result<usize, Refusal> {
    sized(unsafe { kuldveth_load(bytes.as_ptr(), bytes.len()) })
}

fn told(seen: Seen) -> Result<Told, Refusal> {
    if let Some(refusal) = Refusal::of(seen.number.into()) {
        return Err(refusal);
    }
    Ok(Told {
        phase: match seen.phase {
            0 => Phase::Proposing,
            1 => Phase::Asking { row: seen.row },
            _ => Phase::Accepted,
        },
        states: seen.states,
        rules: seen.rules,
        contexts: seen.contexts,
    })
}

fn judged(judged: Judged) -> Result<Verdict, Refusal> {
    if let Some(refusal) = Refusal::of(judged.number.into()) {
        return Err(refusal);
    }
    Ok(match judged.outcome {
        1 => Verdict::Accepted,
        2 => Verdict::NotFinal,
        _ => Verdict::NoRule(judged.place),
    })
}

fn sized(emitted: Emitted) -> Result<usize, Refusal> {
    match Refusal::of(emitted.number) {
        Some(refusal) => Err(refusal),
        None => Ok(emitted.size as usize),
    }
}
