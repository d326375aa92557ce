//! A verdict by both, and what the verdicts of a case met.

use super::compare::{Met, LIST_MAX};
use super::shrink::smaller_record;
use crate::asked;
use crate::bytes::{of_judged, raw_judged};
use crate::calls::judged;
use oracle::testing::compare::{Call, Tables};
use oracle::testing::shrink::smallest;
use oracle::{Emitted, Judged, ACCEPTS, NOT_FINAL, NO_RULE};

fn expected(tables: &Tables, symbols: &[u8]) -> Judged {
    oracle::verdict(&tables.words, &tables.lists, symbols)
}

fn differ(tables: &Tables, symbols: &[u8]) -> bool {
    raw_judged(judged(tables, symbols)) != of_judged(&expected(tables, symbols))
}

/// The verdict by both: every returned byte is the same, and what was lent stays. It is a refusal and zeros, an outcome
/// without a place, or no rule at one of the symbols.
pub fn verdict(tables: &Tables, symbols: &[u8]) -> Judged {
    let told = expected(tables, symbols);
    if raw_judged(judged(tables, symbols)) != of_judged(&told) {
        report(tables.clone(), symbols.to_vec());
    }
    let fits = match (told.number, told.outcome) {
        (0, ACCEPTS | NOT_FINAL) => told.place == 0,
        (0, NO_RULE) => (told.place as usize) < symbols.len(),
        (number, outcome) => number != 0 && (outcome, told.place) == (0, 0),
    };
    assert!(fits, "{told:?} of {symbols:?} on\n{tables:?}");
    told
}

/// Panics with the smallest input found on which both differ.
fn report(tables: Tables, symbols: Vec<u8>) -> ! {
    let differ = |(tables, symbols): &(Tables, Vec<u8>)| differ(tables, symbols);
    let (tables, symbols) = smallest((tables, symbols), smaller_record, differ);
    let (found, right) = (judged(&tables, &symbols), expected(&tables, &symbols));
    panic!("the verdict on {symbols:?} over\n{tables:?}\nlibrary: {found:?}\noracle: {right:?}");
}

impl Met {
    /// Asks both for a verdict and counts what came of it.
    pub fn verdict(&mut self, tables: &Tables, symbols: &[u8]) -> Judged {
        let told = verdict(tables, symbols);
        self.judged[told.number as usize] += 1;
        self.outcomes[told.outcome as usize] += 1;
        told
    }

    /// The verdict on the record of an offer, and the mark.
    pub fn foretold(&mut self, tables: &Tables, call: &Call) -> Option<(Judged, u8)> {
        match call {
            Call::Offer(symbols, mark) => Some((self.verdict(tables, symbols), *mark)),
            _ => None,
        }
    }

    /// Verdicts on any tables: on any record, and on a stored one or over stored ones, if there are such. The number that
    /// refuses all of them, or 0.
    pub fn verdicts(&mut self, tables: &Tables) -> u8 {
        let mut random = asked::random_of(tables);
        let told = self.verdict(tables, &asked::any(tables, &mut random));
        if matches!(told.number, 18 | 30 | 31) {
            return told.number;
        }
        if let Some(symbols) = asked::stored_or_over(tables, &mut random) {
            self.verdict(tables, &symbols);
        }
        0
    }

    /// Emits by both with room for the longest list; verdicts are allowed when that is.
    pub fn emit_and_judge(&mut self, tables: &Tables) -> (Emitted, Vec<u8>) {
        let (emitted, bytes) = self.emit(tables, LIST_MAX);
        let refused = self.verdicts(tables);
        assert_eq!(refused as u32, emitted.number, "verdicts on\n{tables:?}");
        (emitted, bytes)
    }

    /// Asks both for a verdict; panics unless it is refused with the number.
    pub fn verdict_refused(&mut self, tables: &Tables, symbols: &[u8], number: u8) {
        let told = self.verdict(tables, symbols);
        assert_eq!(told.number, number, "{symbols:?} on\n{tables:?}");
    }

    /// Panics if a verdict got one of the numbers fewer times, or was taken with some outcome fewer times.
    pub fn judged_at_least(&self, times: usize, numbers: impl IntoIterator<Item = usize>) {
        let numbers = numbers.into_iter().map(|number| self.judged[number]);
        let met = self.outcomes[1..].iter().copied().chain(numbers);
        met.for_each(|met| assert!(met >= times, "{self}"));
    }
}
