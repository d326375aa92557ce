//! The verdict, by its text (docs/SPECIFICATION.md, 1.4): every subterm of the tree gets a
//! state or none, and of all that fell the first in postorder is taken.

use super::Naive;
use crate::lent::Judged;
use crate::testing::terms::Term;

/// The automaton, and the places of all subterms that got no state although each of
/// their children got one.
struct Fall<'a> {
    run: &'a Naive,
    targets: Vec<usize>,
    places: Vec<usize>,
}

impl Fall<'_> {
    /// The state of a subterm, and its size; its first symbol has the place `first`, and
    /// its root comes last.
    fn subterm(&mut self, term: &Term, first: usize) -> (Option<usize>, usize) {
        let mut below = Vec::new();
        let mut size = 0;
        for child in term.children() {
            let (state, symbols) = self.subterm(child, first + size);
            below.push(state);
            size += symbols;
        }
        let states: Option<Vec<usize>> = below.into_iter().collect();
        let state = states.and_then(|states| {
            let state = self.rule(term, &states);
            if state.is_none() {
                self.places.push(first + size);
            }
            state
        });
        (state, size + 1)
    }

    /// The target of the rule for the root of a record over states of its children.
    fn rule(&self, record: &Term, states: &[usize]) -> Option<usize> {
        let Term::Node(symbol, _) = record else {
            return None;
        };
        let over = states.iter().map(|&state| self.run.s[state].clone());
        let left = Term::Node(*symbol, over.collect());
        let place = self.run.t.iter().position(|rule| *rule == left)?;
        Some(self.targets[place])
    }
}

impl Naive {
    /// The verdict on a record, when no answer is missing.
    pub fn judge(&self, record: &Term) -> Judged {
        let mut fall = Fall {
            run: self,
            targets: self.t.iter().map(|rule| self.target(rule)).collect(),
            places: Vec::new(),
        };
        let (state, _) = fall.subterm(record, 0);
        let (outcome, place) = match state {
            Some(state) if self.known(&self.s[state]) == Some(true) => (1, 0),
            Some(_) => (2, 0),
            None => (3, *fall.places.iter().min().unwrap() as u16),
        };
        Judged {
            number: 0,
            outcome,
            place,
        }
    }

    /// Whether a record is accepted.
    pub fn accepts(&self, record: &Term) -> bool {
        self.judge(record).outcome == 1
    }
}
