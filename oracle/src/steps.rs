//! What happens after an offer is taken in hand and after each answer
//! (docs/SPECIFICATION.md, 4).

use crate::hand::Search;
use crate::lent::Refusal;
use crate::limits::STATES_MAX;
use crate::observe::{spine, Answers};
use crate::run::Run;

impl Run {
    /// The steps up to the next question or proposal.
    pub fn advance(&mut self) -> Result<(), Refusal> {
        if self.lists.hand != 0 && self.search()? == Search::Asking {
            return Ok(());
        }
        match self.observed.first_unknown(&self.records) {
            Some((transition, context)) => self.ask_filled(transition, context),
            None => self.grow_states(),
        }
    }

    /// Opens the question of one transition in one context (4.2).
    fn ask_filled(&mut self, transition: usize, context: usize) -> Result<(), Refusal> {
        let above = spine(&self.records, self.lists.c[context]);
        self.lists.asked = self.records.rebuild(&above, self.lists.t[transition])?;
        Ok(())
    }

    /// Appends to S each transition whose row no representative has (4.3).
    fn grow_states(&mut self) -> Result<(), Refusal> {
        let answers = |transition| self.observed.answers(&self.records, transition);
        let old = self.lists.representatives().iter();
        let mut rows: Vec<Answers> = old
            .filter_map(|&row| self.roles.rule(row))
            .map(answers)
            .collect();
        for transition in 0..self.lists.rules as usize {
            let row = answers(transition);
            if !rows.contains(&row) {
                if rows.len() == STATES_MAX {
                    return Err(Refusal::StatesRunOut);
                }
                self.lists.s[rows.len()] = self.lists.t[transition];
                rows.push(row);
            }
        }
        self.lists.states = rows.len() as u16;
        Ok(())
    }
}
