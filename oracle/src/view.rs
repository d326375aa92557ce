//! What a host is told about a loaded list (docs/SPECIFICATION.md, 6.3), from any bytes.

use crate::lent::{Found, ListRule, ListSizes, Refusal};
use crate::list::{automaton, Automaton};

/// Bytes that were read once; every question to them is answered from the automaton that they tell, or with 21.
pub struct View(Option<Automaton>);

/// Places for child states in what is told of a rule.
const PLACES: usize = 4;

fn told(value: Option<u8>) -> Found {
    Found {
        number: 0,
        found: u8::from(value.is_some()),
        value: value.unwrap_or(0),
    }
}

impl View {
    pub fn of(bytes: &[u8]) -> View {
        View(automaton(bytes))
    }

    pub fn sizes(&self) -> ListSizes {
        let Some(Automaton {
            counts,
            finals,
            rules,
        }) = &self.0
        else {
            return ListSizes {
                number: Refusal::BadList as u16,
                ..ListSizes::default()
            };
        };
        ListSizes {
            number: 0,
            symbols: counts.len() as u16,
            states: finals.len() as u16,
            rules: rules.len() as u16,
        }
    }

    /// One value, if the automaton has it.
    fn value(&self, of: impl FnOnce(&Automaton) -> Option<u8>) -> Found {
        match &self.0 {
            Some(read) => told(of(read)),
            None => Found {
                number: Refusal::BadList as u16,
                ..Found::default()
            },
        }
    }

    pub fn children(&self, symbol: u8) -> Found {
        self.value(|read| read.counts.get(symbol as usize).copied())
    }

    pub fn is_final(&self, state: u8) -> Found {
        self.value(|read| Some(u8::from(*read.finals.get(state as usize)?)))
    }

    /// The target of the one rule with this left side; a rule that is missing has none.
    pub fn target(&self, symbol: u8, states: &[u8]) -> Found {
        self.value(|read| {
            let mut rules = read.rules.iter();
            let rule = rules.find(|rule| rule.symbol == symbol && rule.children == states)?;
            Some(rule.target)
        })
    }

    /// The rule at a place in the order of T.
    pub fn rule(&self, place: u16) -> ListRule {
        let Some(read) = &self.0 else {
            return ListRule {
                number: Refusal::BadList as u8,
                ..ListRule::default()
            };
        };
        let Some(rule) = read.rules.get(place as usize) else {
            return ListRule::default();
        };
        let mut states = [0; PLACES];
        states[..rule.children.len()].copy_from_slice(&rule.children);
        ListRule {
            number: 0,
            found: 1,
            symbol: rule.symbol,
            children: rule.children.len() as u8,
            states,
            target: rule.target,
        }
    }

    /// The automaton that the bytes tell, or none if they are no list.
    pub fn automaton(&self) -> Option<&Automaton> {
        self.0.as_ref()
    }
}
