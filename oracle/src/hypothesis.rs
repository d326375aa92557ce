//! The proposed automaton: its verdict on records, stored or listed
//! (docs/SPECIFICATION.md, 1).

use crate::index::Key;
use crate::lent::{Row, Verdict};
use crate::run::Run;
use crate::table::YES;

/// The state at a root, or none where a rule is missing.
type State = Option<u8>;

impl Run {
    /// The state that the rules give a symbol over states of its children. Each
    /// transition is a symbol over representatives, so the rule is found by its row.
    fn rule_state(&self, symbol: u8, below: impl Iterator<Item = State>) -> State {
        let mut left = Key::of_symbol(symbol);
        for (place, state) in below.enumerate() {
            left = left.with_child(place, self.lists.s[state? as usize]);
        }
        let transition = self.roles.rule(self.records.find(left)?)?;
        self.targets().get(transition).copied()
    }

    /// Whether a state is final: its representative got a yes.
    fn is_final(&self, state: u8) -> bool {
        self.records.answer(self.lists.s[state as usize]) == YES
    }

    /// The verdict on a listed record that has the right form. Children come before
    /// their parent, so the first symbol without a state is the leftmost innermost that
    /// found no rule; as the root gets none, nothing after it is looked at.
    pub fn judge(&self, symbols: &[u8]) -> Verdict {
        let mut states: Vec<u8> = Vec::with_capacity(symbols.len());
        for (place, &symbol) in symbols.iter().enumerate() {
            let rest = states.len() - self.records.count(symbol);
            let below = states[rest..].iter().map(|&state| Some(state));
            let Some(state) = self.rule_state(symbol, below) else {
                return Verdict::NoRule(place as u16);
            };
            states.truncate(rest);
            states.push(state);
        }
        match self.is_final(states[0]) {
            true => Verdict::Accepted,
            false => Verdict::NotFinal,
        }
    }

    /// Whether a stored record is accepted: one pass over the rows up to it, so that
    /// shared rows are never unfolded.
    pub fn accepts(&self, record: Row) -> bool {
        let mut states: Vec<State> = vec![None; record as usize + 1];
        for row in 1..=record {
            let symbol = self.records.key(row).symbol();
            let children = self.records.children(row);
            let below = children.map(|child| states[child as usize]);
            states[row as usize] = self.rule_state(symbol, below);
        }
        states[record as usize].is_some_and(|state| self.is_final(state))
    }
}
