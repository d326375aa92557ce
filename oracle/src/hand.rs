//! The search in hand: contradiction backtracking (docs/SPECIFICATION.md, 4.1).
//!
//! While S and T stand, what a record becomes when its leftmost innermost occurrence
//! outside S is exchanged depends on its row alone. One bottom-up pass tabulates it, so
//! a chain of thousands of exchanges among stored records costs one lookup for each.

use crate::lent::{Refusal, Row};
use crate::limits::RULES_MAX;
use crate::run::Run;
use crate::table::UNKNOWN;

/// What exchanging the leftmost innermost occurrence outside S makes of a record.
#[derive(Clone, Copy, PartialEq, Eq)]
enum Exchange {
    /// The occurrence is no transition yet.
    NewTransition,
    /// The exchanged record is this row.
    Stored(Row),
    /// The exchanged record is not stored.
    Absent,
}

/// What became of the record in hand.
#[derive(PartialEq, Eq)]
pub enum Search {
    /// A question is open; the search goes on after its answer.
    Asking,
    /// The record led to a new transition or context and was put down.
    PutDown,
}

impl Run {
    /// Exchanges until a question opens or the record is put down. Each exchange leaves one
    /// occurrence fewer outside S, so no row is in hand twice.
    pub fn search(&mut self) -> Result<Search, Refusal> {
        let exchanges = self.exchanges();
        let answer = self.records.answer(self.lists.hand);
        loop {
            match exchanges[self.lists.hand as usize] {
                Exchange::NewTransition => return self.enter_transition(),
                Exchange::Absent => return self.ask_exchanged(),
                Exchange::Stored(row) => match self.records.answer(row) {
                    UNKNOWN => return self.ask_exchanged(),
                    known if known == answer => self.lists.hand = row,
                    _ => return self.enter_separation(),
                },
            }
        }
    }

    /// The exchange of every record, bottom up. Entries of rows in S or with a hole are
    /// never used.
    fn exchanges(&self) -> Vec<Exchange> {
        let mut exchanges = vec![Exchange::Absent; self.records.used()];
        for row in 1..self.records.used() as Row {
            if !self.records.holed(row) && self.roles.state(row).is_none() {
                exchanges[row as usize] = self.exchange(row, &exchanges);
            }
        }
        exchanges
    }

    /// The exchange of a record outside S, from those of earlier rows.
    fn exchange(&self, row: Row, earlier: &[Exchange]) -> Exchange {
        let Some((place, child)) = self.first_outside(row) else {
            return match self.roles.rule(row) {
                Some(transition) => Exchange::Stored(self.representative(transition)),
                None => Exchange::NewTransition,
            };
        };
        match earlier[child as usize] {
            Exchange::Stored(below) => {
                let key = self.records.key(row).with_child(place, below);
                let found = self.records.find(key);
                found.map_or(Exchange::Absent, Exchange::Stored)
            }
            other => other,
        }
    }

    /// The leftmost child outside S, with its place.
    fn first_outside(&self, row: Row) -> Option<(usize, Row)> {
        let mut children = self.records.children(row).enumerate();
        children.find(|&(_, child)| self.roles.state(child).is_none())
    }

    /// The representative with the row of a transition.
    fn representative(&self, transition: usize) -> Row {
        self.lists.s[self.targets()[transition] as usize]
    }

    /// The leftmost innermost occurrence outside S of the record in hand, and the rows
    /// above it from the root down, each with the place where the way goes on.
    fn occurrence(&self) -> (Row, Vec<(Row, usize)>) {
        let mut above = Vec::new();
        let mut row = self.lists.hand;
        while let Some((place, child)) = self.first_outside(row) {
            above.push((row, place));
            row = child;
        }
        (row, above)
    }

    /// Asks the record in hand with the occurrence exchanged for its representative.
    fn ask_exchanged(&mut self) -> Result<Search, Refusal> {
        let (occurrence, above) = self.occurrence();
        let transition = self.roles.rule(occurrence);
        let exchanged = transition.map_or(occurrence, |place| self.representative(place));
        self.lists.asked = self.records.rebuild(&above, exchanged)?;
        Ok(Search::Asking)
    }

    /// Appends the context that tells the occurrence from its representative.
    fn enter_separation(&mut self) -> Result<Search, Refusal> {
        let (_, above) = self.occurrence();
        let context = self.records.rebuild(&above, 0)?;
        self.append_context(context);
        self.lists.hand = 0;
        Ok(Search::PutDown)
    }

    /// Appends the occurrence to T and its context to C if absent; 36 comes before the
    /// rows of the context can run out.
    fn enter_transition(&mut self) -> Result<Search, Refusal> {
        if self.lists.rules as usize == RULES_MAX {
            return Err(Refusal::RulesRunOut);
        }
        let (occurrence, above) = self.occurrence();
        let context = self.records.rebuild(&above, 0)?;
        if !self.lists.contexts().contains(&context) {
            self.append_context(context);
        }
        self.append_transition(occurrence);
        self.lists.hand = 0;
        Ok(Search::PutDown)
    }

    fn append_context(&mut self, context: Row) {
        let transitions = self.lists.transitions();
        self.observed
            .add_context(&self.records, transitions, context);
        self.lists.c[self.lists.contexts as usize] = context;
        self.lists.contexts += 1;
    }

    fn append_transition(&mut self, transition: Row) {
        let contexts = self.lists.contexts();
        self.observed
            .add_transitions(&self.records, &[transition], contexts);
        self.lists.t[self.lists.rules as usize] = transition;
        self.lists.rules += 1;
    }
}
