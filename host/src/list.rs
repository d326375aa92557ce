//! A loaded list (docs/SPECIFICATION.md, §6.3): the automaton that its bytes are, shown over them.

use crate::lent::{
    kuldveth_list_children, kuldveth_list_final, kuldveth_list_rule, kuldveth_list_sizes,
    kuldveth_list_target, Found,
};
use crate::{load, Refusal};

/// A list over the bytes of the host. It refers to them and holds no copy; every method reads and tests them anew.
#[derive(Clone, Copy, Debug)]
pub struct List<'a> {
    bytes: &'a [u8],
}

/// How many symbols, states and rules a list has.
#[derive(Clone, Copy, Debug, PartialEq, Eq)]
pub struct Sizes {
    pub symbols: u16,
    pub states: u16,
    pub rules: u16,
}

/// One rule: a symbol over child states leads to a target.
#[derive(Clone, Copy, Debug, PartialEq, Eq)]
pub struct Rule {
    pub symbol: u8,
    pub target: u8,
    children: u8,
    states: [u8; 4],
}

impl Rule {
    /// The child states, from left to right.
    pub fn states(&self) -> &[u8] {
        &self.states[..self.children.into()]
    }
}

impl<'a> List<'a> {
    /// The list in these bytes, or that they are none.
    pub fn load(bytes: &'a [u8]) -> Result<List<'a>, Refusal> {
        load(bytes).map(|_| List { bytes })
    }

    /// The bytes.
    pub fn bytes(self) -> &'a [u8] {
        self.bytes
    }

    /// How many symbols, states and rules there are.
    pub fn sizes(self) -> Sizes {
        let sizes = unsafe { kuldveth_list_sizes(self.bytes.as_ptr(), self.bytes.len()) };
        Sizes {
            symbols: sizes.symbols,
            states: sizes.states,
            rules: sizes.rules,
        }
    }

    /// The child count of a symbol of the alphabet.
    pub fn child_count(self, symbol: u8) -> Option<u8> {
        value(unsafe { kuldveth_list_children(self.bytes.as_ptr(), self.bytes.len(), symbol) })
    }

    /// Whether a state is final, if there is one with this number.
    pub fn is_final(self, state: u8) -> Option<bool> {
        let found = unsafe { kuldveth_list_final(self.bytes.as_ptr(), self.bytes.len(), state) };
        value(found).map(|value| value == 1)
    }

    /// The rule with a number, from 0 on in the order of the list.
    pub fn rule(self, k: u16) -> Option<Rule> {
        let rule = unsafe { kuldveth_list_rule(self.bytes.as_ptr(), self.bytes.len(), k) };
        (rule.found == 1).then_some(Rule {
            symbol: rule.symbol,
            target: rule.target,
            children: rule.children,
            states: rule.states,
        })
    }

    /// The rules in order.
    pub fn rules(self) -> impl Iterator<Item = Rule> + 'a {
        (0..self.sizes().rules).filter_map(move |k| self.rule(k))
    }

    /// The target of the rule with this symbol over exactly these child states; a rule that is missing has none.
    pub fn target(self, symbol: u8, states: &[u8]) -> Option<u8> {
        let (bytes, size) = (self.bytes.as_ptr(), self.bytes.len());
        let (first, length) = (states.as_ptr(), states.len());
        value(unsafe { kuldveth_list_target(bytes, size, symbol, first, length) })
    }
}

fn value(found: Found) -> Option<u8> {
    (found.found == 1).then_some(found.value)
}
