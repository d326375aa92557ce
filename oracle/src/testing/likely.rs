//! Large records that an automaton has rules for, but for a few symbols.

use super::random::Random;
use super::target::{last_tree, Target};

/// Trees without a parent, in the order of their symbols, with the state of each: any state
/// where a rule is missing.
struct Forest<'a> {
    target: &'a Target,
    symbols: Vec<u8>,
    states: Vec<Option<u8>>,
}

impl Forest<'_> {
    fn count(&self, symbol: u8) -> usize {
        self.target.counts()[symbol as usize] as usize
    }

    /// The state that a symbol would get over the last trees.
    fn state(&self, symbol: u8) -> Option<u8> {
        let rest = self.states.len() - self.count(symbol);
        self.target.state(symbol, &self.states[rest..])
    }

    fn push(&mut self, symbol: u8, random: &mut Random) {
        let states = self.target.automaton.finals.len().max(1);
        let state = self.state(symbol).unwrap_or(random.below(states) as u8);
        self.states.truncate(self.states.len() - self.count(symbol));
        self.states.push(Some(state));
        self.symbols.push(symbol);
    }

    /// The largest of the trees.
    fn largest(&self) -> Vec<u8> {
        let mut largest = Vec::new();
        let mut rest = &self.symbols[..];
        while !rest.is_empty() {
            let tree = last_tree(rest, self.target.counts());
            rest = &rest[..rest.len() - tree.len()];
            if tree.len() > largest.len() {
                largest = tree;
            }
        }
        largest
    }
}

/// Keeps what has the property, if anything has.
fn prefer(among: &mut Vec<u8>, property: impl Fn(&u8) -> bool) {
    if among.iter().any(&property) {
        among.retain(property);
    }
}

/// A random record of at most so many symbols, over an alphabet whose symbol 0 is a leaf.
pub fn record(target: &Target, random: &mut Random, most: usize) -> Vec<u8> {
    let mut forest = Forest {
        target,
        symbols: Vec::new(),
        states: Vec::new(),
    };
    let size = random.within(1, most);
    let trees = random.within(4, 8);
    for _ in 0..size {
        let all = 0..target.counts().len() as u8;
        let fits = |&symbol: &u8| forest.count(symbol) <= forest.states.len();
        let mut among: Vec<u8> = all.filter(fits).collect();
        if forest.states.len() >= trees {
            prefer(&mut among, |&symbol| forest.count(symbol) > 1);
            prefer(&mut among, |&symbol| forest.count(symbol) > 0);
        }
        if random.below(size) > 0 {
            prefer(&mut among, |&symbol| forest.state(symbol).is_some());
        }
        let symbol = *random.pick(&among);
        forest.push(symbol, random);
    }
    forest.largest()
}
