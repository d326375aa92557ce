//! What the host lends to each call, and what a call returns
//! (docs/SPECIFICATION.md, 2.2 and 3).

use crate::limits::{CONTEXTS_MAX, RULES_MAX, STATES_MAX, SYMBOLS_MAX};

/// The number of a row in the record table.
pub type Row = u16;

/// The run's own lists. Places past an end are the host's and are never read.
#[repr(C)]
#[derive(Clone, Debug, PartialEq, Eq)]
pub struct Lists {
    pub letters: u8,
    pub counts: [u8; SYMBOLS_MAX],
    pub accepted: u8,
    pub used: u16,
    pub states: u16,
    pub s: [Row; STATES_MAX],
    pub rules: u16,
    pub t: [Row; RULES_MAX],
    pub contexts: u16,
    pub c: [Row; CONTEXTS_MAX],
    /// The record in hand, 0 for none.
    pub hand: Row,
    /// The open question, 0 for none.
    pub asked: Row,
}

impl Lists {
    /// Lists full of zeros, which are not sound: what a host holds before `start`.
    pub const fn zeroed() -> Lists {
        Lists {
            letters: 0,
            counts: [0; SYMBOLS_MAX],
            accepted: 0,
            used: 0,
            states: 0,
            s: [0; STATES_MAX],
            rules: 0,
            t: [0; RULES_MAX],
            contexts: 0,
            c: [0; CONTEXTS_MAX],
            hand: 0,
            asked: 0,
        }
    }

    /// Whether each count stays within its array, so that the slices below exist.
    pub fn ends_fit(&self) -> bool {
        self.letters as usize <= SYMBOLS_MAX
            && self.states as usize <= STATES_MAX
            && self.rules as usize <= RULES_MAX
            && self.contexts as usize <= CONTEXTS_MAX
    }

    /// One child count per symbol.
    pub fn alphabet(&self) -> &[u8] {
        &self.counts[..self.letters as usize]
    }

    /// S, in order of entry.
    pub fn representatives(&self) -> &[Row] {
        &self.s[..self.states as usize]
    }

    /// T, in order of entry.
    pub fn transitions(&self) -> &[Row] {
        &self.t[..self.rules as usize]
    }

    /// C, in order of entry.
    pub fn contexts(&self) -> &[Row] {
        &self.c[..self.contexts as usize]
    }

    /// The phase and counts that `look` tells (3.3).
    pub fn seen(&self) -> Seen {
        let phase = match (self.asked, self.accepted) {
            (0, 0) => PROPOSING,
            (0, _) => ACCEPTED,
            _ => ASKING,
        };
        Seen {
            number: 0,
            phase,
            row: self.asked,
            states: self.states,
            rules: self.rules,
            contexts: self.contexts,
        }
    }
}

impl Default for Lists {
    fn default() -> Lists {
        Lists::zeroed()
    }
}

/// No question is open and the run is not accepted (3.1).
pub const PROPOSING: u8 = 0;
/// A question is open (3.1).
pub const ASKING: u8 = 1;
/// The proposal was accepted (3.1).
pub const ACCEPTED: u8 = 2;

/// What a call tells: number 0 and the rest, or a refusal's number and zeros.
#[repr(C)]
#[derive(Clone, Copy, Debug, Default, PartialEq, Eq)]
pub struct Seen {
    pub number: u8,
    pub phase: u8,
    pub row: Row,
    pub states: u16,
    pub rules: u16,
    pub contexts: u16,
}

/// The record is accepted (1.4).
pub const ACCEPTS: u8 = 1;
/// The root got a state that is not final (1.4).
pub const NOT_FINAL: u8 = 2;
/// A symbol found no rule (1.4).
pub const NO_RULE: u8 = 3;

/// What a verdict tells: number 0, the outcome, and beside `NO_RULE` the place; or a
/// refusal's number and zeros (3.8).
#[repr(C)]
#[derive(Clone, Copy, Debug, Default, PartialEq, Eq)]
pub struct Judged {
    pub number: u8,
    pub outcome: u8,
    pub place: u16,
}

/// The verdict on a listed record (1.4).
#[derive(Clone, Copy, Debug, PartialEq, Eq)]
pub enum Verdict {
    Accepted,
    NotFinal,
    /// The place, from 0, of the leftmost innermost symbol that found no rule.
    NoRule(u16),
}

impl From<Verdict> for Judged {
    fn from(verdict: Verdict) -> Judged {
        let (outcome, place) = match verdict {
            Verdict::Accepted => (ACCEPTS, 0),
            Verdict::NotFinal => (NOT_FINAL, 0),
            Verdict::NoRule(place) => (NO_RULE, place),
        };
        Judged {
            number: 0,
            outcome,
            place,
        }
    }
}

/// What emitting and loading tell: number 0 and bytes written or rules read,
/// or a refusal's number and 0.
#[repr(C)]
#[derive(Clone, Copy, Debug, Default, PartialEq, Eq)]
pub struct Emitted {
    pub number: u32,
    pub size: u32,
}

/// How many symbols, states and rules a list has, or a refusal's number and zeros.
#[repr(C)]
#[derive(Clone, Copy, Debug, Default, PartialEq, Eq)]
pub struct ListSizes {
    pub number: u16,
    pub symbols: u16,
    pub states: u16,
    pub rules: u16,
}

/// One value of a list: found 1 and the value, or found 0 and 0; with a refusal's number both are 0.
#[repr(C)]
#[derive(Clone, Copy, Debug, Default, PartialEq, Eq)]
pub struct Found {
    pub number: u16,
    pub found: u8,
    pub value: u8,
}

/// One rule of a list, the places past its children 0; all zeros where there is none.
#[repr(C)]
#[derive(Clone, Copy, Debug, Default, PartialEq, Eq)]
pub struct ListRule {
    pub number: u8,
    pub found: u8,
    pub symbol: u8,
    pub children: u8,
    pub states: [u8; 4],
    pub target: u8,
}

/// The refusals by name, with their numbers (docs/SPECIFICATION.md, 5).
#[repr(u8)]
#[derive(Clone, Copy, Debug, PartialEq, Eq)]
pub enum Refusal {
    EmptyRecord = 11,
    LongRecord = 12,
    UnknownSymbol = 13,
    FewChildren = 14,
    ManyTrees = 15,
    OddMark = 16,
    BadAlphabet = 17,
    BadTable = 18,
    ShortOutput = 20,
    BadList = 21,
    Unsound = 30,
    NotNow = 31,
    VerdictAgrees = 32,
    AnswerDiffers = 33,
    RowsRunOut = 34,
    StatesRunOut = 35,
    RulesRunOut = 36,
}

impl From<Refusal> for Seen {
    fn from(refusal: Refusal) -> Seen {
        Seen {
            number: refusal as u8,
            ..Seen::default()
        }
    }
}

impl From<Refusal> for Judged {
    fn from(refusal: Refusal) -> Judged {
        Judged {
            number: refusal as u8,
            ..Judged::default()
        }
    }
}

impl From<Refusal> for Emitted {
    fn from(refusal: Refusal) -> Emitted {
        Emitted {
            number: refusal as u32,
            size: 0,
        }
    }
}
