//! Teachers: an automaton that answers questions and finds counterexamples.

use super::random::Random;
use crate::limits::ROW_WORDS;
use crate::list::{Automaton, Rule};
use std::collections::HashMap;

/// An automaton with its rules by left side.
pub struct Target {
    pub automaton: Automaton,
    rules: HashMap<(u8, Vec<u8>), usize>,
}

impl Target {
    pub fn new(automaton: Automaton) -> Target {
        let sides = automaton.rules.iter().enumerate();
        let rules = sides
            .map(|(place, rule)| ((rule.symbol, rule.children.clone()), place))
            .collect();
        Target { automaton, rules }
    }

    /// An automaton from rules written as symbol, child states, target.
    pub fn of(counts: &[u8], finals: &[u8], rules: &[(u8, &[u8], u8)]) -> Target {
        let rule = |&(symbol, children, target): &(u8, &[u8], u8)| Rule {
            symbol,
            children: children.to_vec(),
            target,
        };
        Target::new(Automaton {
            counts: counts.to_vec(),
            finals: finals.iter().map(|&byte| byte == 1).collect(),
            rules: rules.iter().map(rule).collect(),
        })
    }

    /// The full binary trees whose depth leaves 30, divided by so many states.
    pub fn depths(states: u8) -> Target {
        let level = |state: u8| (0, vec![state; 2], (state + 1) % states);
        let rules: Vec<_> = (0..states).map(level).chain([(1, vec![], 0)]).collect();
        let rules: Vec<(u8, &[u8], u8)> = rules
            .iter()
            .map(|rule| (rule.0, &rule.1[..], rule.2))
            .collect();
        let finals: Vec<u8> = (0..states).map(|state| (state == 30) as u8).collect();
        Target::of(&[2, 0], &finals, &rules)
    }

    pub fn counts(&self) -> &[u8] {
        &self.automaton.counts
    }

    /// The rule for a symbol over child states.
    pub fn rule(&self, symbol: u8, children: &[Option<u8>]) -> Option<usize> {
        let children: Option<Vec<u8>> = children.iter().copied().collect();
        self.rules.get(&(symbol, children?)).copied()
    }

    pub fn state(&self, symbol: u8, children: &[Option<u8>]) -> Option<u8> {
        let rule = self.rule(symbol, children)?;
        Some(self.automaton.rules[rule].target)
    }

    pub fn is_final(&self, state: Option<u8>) -> bool {
        state.is_some_and(|state| self.automaton.finals[state as usize])
    }

    /// The state at each symbol of a record, children before parent.
    pub fn place_states(&self, symbols: &[u8]) -> Vec<Option<u8>> {
        let mut states: Vec<Option<u8>> = Vec::new();
        let at = |&symbol: &u8| {
            let rest = states.len() - self.counts()[symbol as usize] as usize;
            let state = self.state(symbol, &states[rest..]);
            states.truncate(rest);
            states.push(state);
            state
        };
        symbols.iter().map(at).collect()
    }

    /// Whether a record, children before parent, is in the language.
    pub fn accepts(&self, symbols: &[u8]) -> bool {
        let states = self.place_states(symbols);
        self.is_final(states[symbols.len() - 1])
    }

    /// The state of every used row, with a state of the reader's choice at the hole.
    pub fn row_states(&self, words: &[u32], used: usize, hole: Option<u8>) -> Vec<Option<u8>> {
        let mut states = vec![hole];
        for row in words.chunks_exact(ROW_WORDS).take(used).skip(1) {
            let count = self.counts()[row[0] as usize] as usize;
            let children: Vec<_> = row[2..][..count]
                .iter()
                .map(|&child| states[child as usize])
                .collect();
            states.push(self.state(row[0] as u8, &children));
        }
        states
    }

    /// A random partial automaton: few symbols, few states, some rules missing.
    pub fn random(random: &mut Random) -> Target {
        Target::sized(random, 5)
    }

    /// The same with no more than so many states.
    pub fn sized(random: &mut Random, most_states: usize) -> Target {
        let states = random.within(1, most_states);
        let most = [4, 3, 2][(states - 1).min(2)];
        let mut counts = vec![0];
        for _ in 0..random.within(1, 3) {
            counts.push(random.within(0, most) as u8);
        }
        let density = random.within(25, 100);
        let mut rules = Vec::new();
        for (symbol, &count) in counts.iter().enumerate() {
            for tuple in 0..states.pow(count as u32) {
                if rules.len() < 120 && (symbol == 0 || random.percent(density)) {
                    let child = |place| (tuple / states.pow(place) % states) as u8;
                    rules.push(Rule {
                        symbol: symbol as u8,
                        children: (0..count as u32).map(child).collect(),
                        target: random.below(states) as u8,
                    });
                }
            }
        }
        let finals = (0..states).map(|_| random.percent(50)).collect();
        Target::new(Automaton {
            counts,
            finals,
            rules,
        })
    }

    /// A random record over an alphabet whose symbol 0 is a leaf.
    pub fn random_record(counts: &[u8], random: &mut Random, most: usize) -> Vec<u8> {
        let mut symbols = Vec::new();
        let mut ready = 0;
        for _ in 0..random.within(1, most) {
            let fitting: Vec<usize> = (0..counts.len())
                .filter(|&symbol| counts[symbol] as usize <= ready)
                .collect();
            let symbol = *random.pick(&fitting);
            ready = ready + 1 - counts[symbol] as usize;
            symbols.push(symbol as u8);
        }
        last_tree(&symbols, counts)
    }
}

/// The last tree of a forest written children before parent.
pub fn last_tree(symbols: &[u8], counts: &[u8]) -> Vec<u8> {
    let mut wanted = 1;
    let mut first = symbols.len();
    while wanted > 0 {
        first -= 1;
        wanted = wanted - 1 + counts[symbols[first] as usize] as usize;
    }
    symbols[first..].to_vec()
}

/// How a pair of states is reached by the least record known so far.
#[derive(Clone)]
struct Reached {
    size: u64,
    symbol: u8,
    children: Vec<usize>,
}

/// The search for a smallest record on which two automata differ: all pairs of states
/// reached together, a missing state counted as one more.
struct Product<'a> {
    one: &'a Target,
    other: &'a Target,
    width: usize,
    reached: Vec<Option<Reached>>,
    /// The tuples that may still be looked at.
    left: usize,
}

/// How many tuples of pairs one search looks at.
const TUPLES: usize = 2_000_000;
/// Larger records are not written out.
const LARGEST: u64 = 1 << 20;

/// A smallest record on which two automata over the same alphabet differ, or the smallest that
/// the search finds before it ends. Sizes only get smaller, so that there are not more rounds
/// than pairs.
pub fn smallest_difference(one: &Target, other: &Target) -> Option<Vec<u8>> {
    let width = other.automaton.finals.len() + 1;
    let pairs = (one.automaton.finals.len() + 1) * width;
    let mut product = Product {
        one,
        other,
        width,
        reached: vec![None; pairs],
        left: TUPLES,
    };
    while product.improve() {}
    let sized = |&pair: &usize| product.reached[pair].as_ref().map(|found| found.size);
    let small = |&pair: &usize| sized(&pair).is_some_and(|size| size < LARGEST);
    let differing = (1..pairs).filter(|pair| product.differs(*pair) && small(pair));
    let mut symbols = Vec::new();
    product.write(differing.min_by_key(sized)?, &mut symbols);
    Some(symbols)
}

impl Product<'_> {
    fn states(&self, pair: usize) -> (Option<u8>, Option<u8>) {
        let state = |number: usize| number.checked_sub(1).map(|state| state as u8);
        (state(pair / self.width), state(pair % self.width))
    }

    fn differs(&self, pair: usize) -> bool {
        let (one, other) = self.states(pair);
        self.one.is_final(one) != self.other.is_final(other)
    }

    /// One round over all symbols and tuples of reached pairs; whether any got smaller.
    /// The pair of two missing states leads nowhere and is left out.
    fn improve(&mut self) -> bool {
        let known: Vec<usize> = (1..self.reached.len())
            .filter(|&pair| self.reached[pair].is_some())
            .collect();
        let mut improved = false;
        for (symbol, &count) in self.one.counts().iter().enumerate() {
            let tuples = known.len().pow(count as u32).min(self.left);
            self.left -= tuples;
            for tuple in 0..tuples {
                let child = |place| known[tuple / known.len().pow(place) % known.len()];
                let children = (0..count as u32).map(child).collect();
                improved |= self.reach(symbol as u8, children);
            }
        }
        improved
    }

    fn reach(&mut self, symbol: u8, children: Vec<usize>) -> bool {
        let below: Vec<_> = children.iter().map(|&pair| self.states(pair)).collect();
        let (ones, others): (Vec<_>, Vec<_>) = below.into_iter().unzip();
        let number = |state: Option<u8>| state.map_or(0, |state| state as usize + 1);
        let pair = number(self.one.state(symbol, &ones)) * self.width
            + number(self.other.state(symbol, &others));
        let sizes = children
            .iter()
            .filter_map(|&child| self.reached[child].as_ref());
        let size = sizes.fold(1, |sum: u64, found| sum.saturating_add(found.size));
        let better = pair != 0 && !matches!(&self.reached[pair], Some(old) if old.size <= size);
        if better {
            self.reached[pair] = Some(Reached {
                size,
                symbol,
                children,
            });
        }
        better
    }

    fn write(&self, pair: usize, symbols: &mut Vec<u8>) {
        if let Some(found) = &self.reached[pair] {
            for &child in &found.children {
                self.write(child, symbols);
            }
            symbols.push(found.symbol);
        }
    }
}
