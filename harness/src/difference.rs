//! A smallest record on which two automata differ, found along their rules: fast where rules are few
//! against the tuples of states.

use oracle::testing::target::Target;
use oracle::Automaton;
use std::collections::HashMap;

/// The states of one record in both automata; not both are missing.
type Pair = (Option<u8>, Option<u8>);

/// How a pair is reached by the least record known so far.
struct Reached {
    size: u64,
    symbol: u8,
    children: Vec<Pair>,
}

struct Search<'a> {
    one: &'a Target,
    other: &'a Target,
    reached: HashMap<Pair, Reached>,
    order: Vec<Pair>,
    /// The tuples that may still be looked at.
    left: usize,
}

/// How many tuples of pairs one search looks at.
const TUPLES: usize = 2_000_000;

/// A smallest record on which two automata over the same alphabet differ, or the smallest that the search finds before it
/// ends; none of 2^20 symbols and more. Sizes only get smaller, so that there are not more rounds than pairs.
pub fn difference(one: &Target, other: &Target) -> Option<Vec<u8>> {
    let mut search = Search {
        one,
        other,
        reached: HashMap::new(),
        order: Vec::new(),
        left: TUPLES,
    };
    while search.improve() {}
    let differs = |pair: &&Pair| one.is_final(pair.0) != other.is_final(pair.1);
    let differing = search.order.iter().filter(differs);
    let least = differing.min_by_key(|pair| search.reached[pair].size)?;
    let mut symbols = Vec::new();
    (search.reached[least].size < 1 << 20).then(|| search.write(least, &mut symbols))?;
    Some(symbols)
}

impl Search<'_> {
    /// One round over all rules of both; whether any pair got smaller.
    fn improve(&mut self) -> bool {
        let (one, other) = (self.one, self.other);
        let first = self.follow(&one.automaton, |pair| pair.0);
        let second = self.follow(&other.automaton, |pair| pair.1);
        first || second
    }

    fn follow(&mut self, automaton: &Automaton, state: impl Fn(&Pair) -> Option<u8>) -> bool {
        let mut improved = false;
        for rule in &automaton.rules {
            let alike = |&child: &u8| {
                let pairs = self.order.iter().filter(|pair| state(pair) == Some(child));
                pairs.copied().collect::<Vec<Pair>>()
            };
            let choices: Vec<Vec<Pair>> = rule.children.iter().map(alike).collect();
            let tuples: usize = choices.iter().map(Vec::len).product();
            let tuples = tuples.min(self.left);
            self.left -= tuples;
            for mut tuple in 0..tuples {
                let mut children = Vec::with_capacity(choices.len());
                for pairs in &choices {
                    children.push(pairs[tuple % pairs.len()]);
                    tuple /= pairs.len();
                }
                improved |= self.reach(rule.symbol, children);
            }
        }
        improved
    }

    fn reach(&mut self, symbol: u8, children: Vec<Pair>) -> bool {
        let (ones, others): (Vec<_>, Vec<_>) = children.iter().copied().unzip();
        let state = |target: &Target, states: &[Option<u8>]| {
            let rule = target.rule(symbol, states)?;
            Some(target.automaton.rules[rule].target)
        };
        let pair = (state(self.one, &ones), state(self.other, &others));
        let sizes = children.iter().map(|child| self.reached[child].size);
        let size = sizes.fold(1, u64::saturating_add);
        let better = match self.reached.get(&pair) {
            _ if pair == (None, None) => false,
            Some(old) => size < old.size,
            None => {
                self.order.push(pair);
                true
            }
        };
        if better {
            let found = Reached {
                size,
                symbol,
                children,
            };
            self.reached.insert(pair, found);
        }
        better
    }

    fn write(&self, pair: &Pair, symbols: &mut Vec<u8>) {
        let found = &self.reached[pair];
        for child in &found.children {
            self.write(child, symbols);
        }
        symbols.push(found.symbol);
    }
}
