//! The refusals by their numbers (docs/SPECIFICATION.md, §5).

use std::error::Error;
use std::fmt;

/// Why a call was refused. Nothing lent has changed.
#[derive(Clone, Copy, Debug, PartialEq, Eq)]
pub enum Refusal {
    EmptyRecord,
    LongRecord,
    UnknownSymbol,
    FewChildren,
    ManyTrees,
    BadMark,
    BadAlphabet,
    BadWords,
    ShortOutput,
    BadList,
    Unsound,
    NotNow,
    /// The mark contradicts no known answer, and the automaton says the same already.
    NothingNew,
    /// The opposite of the mark is known of the record, whatever the automaton says.
    Contradicts,
    NoRows,
    NoStates,
    NoRules,
    /// A number that no refusal has.
    Other(u32),
}

/// Each refusal with its number and what it says.
const KNOWN: [(u32, Refusal, &str); 17] = [
    (11, Refusal::EmptyRecord, "empty record"),
    (12, Refusal::LongRecord, "over 1,024 symbols"),
    (13, Refusal::UnknownSymbol, "unknown symbol"),
    (
        14,
        Refusal::FewChildren,
        "a symbol wants more children than stand ready",
    ),
    (15, Refusal::ManyTrees, "more than one tree left"),
    (16, Refusal::BadMark, "answer or mark other than 0 and 1"),
    (
        17,
        Refusal::BadAlphabet,
        "alphabet empty, over 64, or a count over 4",
    ),
    (
        18,
        Refusal::BadWords,
        "record table not whole rows, no row, or over 16,384",
    ),
    (20, Refusal::ShortOutput, "output too short"),
    (21, Refusal::BadList, "list bytes that break the form"),
    (30, Refusal::Unsound, "tables not sound"),
    (31, Refusal::NotNow, "call not allowed now"),
    (
        32,
        Refusal::NothingNew,
        "the mark equals the automaton's verdict",
    ),
    (
        33,
        Refusal::Contradicts,
        "the mark contradicts a known answer",
    ),
    (34, Refusal::NoRows, "rows run out"),
    (35, Refusal::NoStates, "a 33rd state"),
    (36, Refusal::NoRules, "a 257th transition"),
];

impl Refusal {
    /// The refusal with a number; none for 0.
    pub fn of(number: u32) -> Option<Refusal> {
        if number == 0 {
            return None;
        }
        let known = KNOWN.iter().find(|(n, _, _)| *n == number);
        Some(known.map_or(Refusal::Other(number), |(_, refusal, _)| *refusal))
    }

    /// Its number.
    pub fn number(self) -> u32 {
        match (self, KNOWN.iter().find(|(_, refusal, _)| *refusal == self)) {
            (Refusal::Other(number), _) => number,
            (_, Some((number, _, _))) => *number,
            (_, None) => 0,
        }
    }
}

impl fmt::Display for Refusal {
    fn fmt(&self, f: &mut fmt::Formatter<'_>) -> fmt::Result {
        let words = KNOWN.iter().find(|(_, refusal, _)| refusal == self);
        write!(
            f,
            "refused {}: {}",
            self.number(),
            words.map_or("", |(_, _, words)| words)
        )
    }
}

impl Error for Refusal {}
