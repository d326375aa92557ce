//! Automata to learn: random ones up to every limit, and two families that pass one.

use oracle::testing::random::Random;
use oracle::testing::target::Target;
use oracle::{Automaton, Rule};
use std::collections::HashSet;

/// A random alphabet of so many symbols; symbol 0 is a leaf.
fn alphabet(random: &mut Random, letters: usize) -> Vec<u8> {
    let mut counts = vec![0];
    let likely = [0, 1, 1, 1, 2, 2, 2, 3, 4];
    counts.extend((1..letters).map(|_| *random.pick(&likely)));
    counts
}

/// Rules with distinct left sides.
struct Rules {
    sides: HashSet<(u8, Vec<u8>)>,
    rules: Vec<Rule>,
}

impl Rules {
    /// Adds a rule of a random symbol over states below `end`, unless its left side is taken.
    fn add(&mut self, random: &mut Random, counts: &[u8], end: usize, target: usize) -> bool {
        let symbol = random.below(counts.len()) as u8;
        let count = counts[symbol as usize];
        if count > 0 && end == 0 {
            return false;
        }
        let children: Vec<u8> = (0..count).map(|_| random.below(end) as u8).collect();
        let fresh = self.sides.insert((symbol, children.clone()));
        if fresh {
            let target = target as u8;
            self.rules.push(Rule {
                symbol,
                children,
                target,
            });
        }
        fresh
    }
}

/// A random automaton of so many states, if its alphabet reaches them all, and up to so many rules.
pub fn random(random: &mut Random, states: usize, letters: usize, most: usize) -> Target {
    let counts = alphabet(random, letters);
    let mut made = Rules {
        sides: HashSet::new(),
        rules: Vec::new(),
    };
    let mut reached = 0;
    for _ in 0..40 * states {
        if reached < states && made.add(random, &counts, reached, reached) {
            reached += 1;
        }
    }
    let wanted = random.within(reached, most.max(reached));
    for _ in 0..4 * wanted {
        if made.rules.len() < wanted {
            let target = random.below(reached.max(1));
            made.add(random, &counts, reached, target);
        }
    }
    let share = *random.pick(&[20, 50, 80]);
    Target::new(Automaton {
        counts,
        finals: (0..states).map(|_| random.percent(share)).collect(),
        rules: made.rules,
    })
}

/// The language of the one chain with so many links, which has one state more.
pub fn one_chain(links: u8) -> Target {
    let link = |state| Rule {
        symbol: 0,
        children: vec![state],
        target: state + 1,
    };
    let leaf = Rule {
        symbol: 1,
        children: vec![],
        target: 0,
    };
    Target::new(Automaton {
        counts: vec![1, 0],
        finals: (0..=links).map(|state| state == links).collect(),
        rules: std::iter::once(leaf).chain((0..links).map(link)).collect(),
    })
}

/// Parity of the leaves 1: every symbol sums the states of its children, that leaf adds one.
pub fn parity(counts: &[u8]) -> Target {
    let mut rules = Vec::new();
    for (symbol, &count) in counts.iter().enumerate() {
        for tuple in 0..1u32 << count {
            let children = (0..count).map(|place| (tuple >> place & 1) as u8);
            let sum = tuple.count_ones() + (symbol == 1) as u32;
            rules.push(Rule {
                symbol: symbol as u8,
                children: children.collect(),
                target: (sum % 2) as u8,
            });
        }
    }
    Target::new(Automaton {
        counts: counts.to_vec(),
        finals: vec![true, false],
        rules,
    })
}
