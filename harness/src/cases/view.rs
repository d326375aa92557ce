//! The calls about a list, from any bytes: every part of the automaton that they are, and what is past its ends.

use super::compare::Met;
use super::lists::{block, proposed};
use crate::kuldveth;
use oracle::testing::random::Random;
use oracle::{Automaton, View};

/// Bytes as they are lent, with what the oracle reads in them.
struct Lent<'a> {
    bytes: &'a [u8],
    view: View,
    met: &'a mut Met,
}

impl Lent<'_> {
    /// Counts a call and panics where library and oracle differ.
    fn same<T: PartialEq + std::fmt::Debug>(
        &mut self,
        number: u16,
        found: T,
        right: T,
        what: &str,
    ) {
        self.met.listed[number as usize] += 1;
        assert_eq!(found, right, "{what} of {:?}", self.bytes);
    }

    fn sizes(&mut self) {
        let right = self.view.sizes();
        self.same(
            right.number,
            kuldveth::list_sizes(self.bytes),
            right,
            "sizes",
        );
    }

    fn children(&mut self, symbol: u8) {
        let (found, right) = (
            kuldveth::list_children(self.bytes, symbol),
            self.view.children(symbol),
        );
        self.same(right.number, found, right, &format!("symbol {symbol}"));
    }

    fn is_final(&mut self, state: u8) {
        let (found, right) = (
            kuldveth::list_final(self.bytes, state),
            self.view.is_final(state),
        );
        self.same(right.number, found, right, &format!("state {state}"));
    }

    fn rule(&mut self, k: u16) {
        let (found, right) = (kuldveth::list_rule(self.bytes, k), self.view.rule(k));
        self.same(right.number.into(), found, right, &format!("rule {k}"));
    }

    fn target(&mut self, symbol: u8, states: &[u8]) {
        let (found, right) = (
            kuldveth::list_target(self.bytes, symbol, states),
            self.view.target(symbol, states),
        );
        let what = format!("target of {symbol} over {states:?}");
        self.same(right.number, found, right, &what);
    }

    /// The left sides of the list; each with a state less, a state more, and one changed.
    fn left_sides(&mut self, random: &mut Random) {
        let Some(Automaton { rules, .. }) = self.view.automaton().cloned() else {
            return;
        };
        for rule in rules {
            self.target(rule.symbol, &rule.children);
            let mut states = rule.children;
            states.push(random.below(34) as u8);
            self.target(rule.symbol, &states);
            states.truncate(random.below(states.len()));
            self.target(rule.symbol, &states);
            if let Some(state) = states.first_mut() {
                *state = random.below(34) as u8;
                self.target(random.below(66) as u8, &states);
            }
        }
    }

    /// Left sides of any sort, most of which no rule has.
    fn random_sides(&mut self, random: &mut Random, times: usize) {
        for _ in 0..times {
            let size = *random.pick(&[0, 1, 1, 2, 2, 3, 4, 5, 300]);
            let most = *random.pick(&[2, 33, 256]);
            let states: Vec<u8> = (0..size).map(|_| random.below(most) as u8).collect();
            self.target(random.below(most) as u8, &states);
        }
    }
}

/// All symbols, states and numbers of rules, all left sides that there are, and others.
pub fn every_part(bytes: &[u8], random: &mut Random, met: &mut Met) {
    let before = bytes.to_vec();
    let mut lent = Lent {
        bytes,
        view: View::of(bytes),
        met,
    };
    lent.sizes();
    for number in 0..=255 {
        lent.children(number);
        lent.is_final(number);
    }
    let far = [511, 512, 4_096, 32_768, 65_280, 65_535];
    (0..300).chain(far).for_each(|k| lent.rule(k));
    lent.left_sides(random);
    lent.random_sides(random, 60);
    assert_eq!(bytes, before, "a call changed the bytes");
}

/// A few of each, for bytes of which there are many.
pub fn some_parts(bytes: &[u8], random: &mut Random, met: &mut Met) {
    let mut lent = Lent {
        bytes,
        view: View::of(bytes),
        met,
    };
    lent.sizes();
    for most in [3, 40, 256] {
        lent.children(random.below(most) as u8);
        lent.is_final(random.below(most) as u8);
        lent.rule(random.below(most) as u16);
    }
    lent.random_sides(random, 2);
}

/// A list near the limits: random counts, states and rules, none of them twice.
pub fn random_limits(random: &mut Random) -> Vec<u8> {
    let letters = *random.pick(&[1, 2, 63, 64]);
    let states = *random.pick(&[0, 1, 31, 32]);
    let counts: Vec<u8> = (0..letters).map(|_| random.below(5) as u8).collect();
    let finals: Vec<u8> = (0..states).map(|_| random.below(2) as u8).collect();
    let mut bytes = [block(1, &counts), block(2, &finals)].concat();
    let mut sides = Vec::new();
    for _ in 0..random.within(0, 400) {
        let symbol = random.below(letters);
        let mut side = vec![symbol as u8];
        side.extend((0..counts[symbol]).map(|_| random.below(states.max(1)) as u8));
        if states == 0 || sides.len() == 256 || sides.contains(&side) {
            continue;
        }
        sides.push(side.clone());
        side.push(random.below(states) as u8);
        bytes.extend(block(3, &side));
    }
    bytes
}

/// A list with one byte changed, cut, with a byte more, or with one taken out.
pub fn changed(good: &[u8], random: &mut Random) -> Vec<u8> {
    let place = random.below(good.len());
    let mut bytes = good.to_vec();
    match random.below(5) {
        0 => bytes.truncate(place),
        1 => bytes.push(random.below(4) as u8),
        2 => drop(bytes.remove(place)),
        3 => bytes[place] = random.bits() as u8,
        _ => bytes[place] = random.below(5) as u8,
    }
    bytes
}

/// The list of a random run and one near the limits, whole and changed; bytes that are no list.
pub fn random_lists(random: &mut Random, met: &mut Met) {
    let good = proposed(random).unwrap_or_else(|| random_limits(random));
    every_part(&good, random, met);
    let large = random_limits(random);
    every_part(&large, random, met);
    for _ in 0..200 {
        some_parts(&changed(&good, random), random, met);
        some_parts(&changed(&large, random), random, met);
    }
    for _ in 0..200 {
        let size = random.below(40);
        let bytes: Vec<u8> = (0..size).map(|_| random.below(5) as u8).collect();
        some_parts(&bytes, random, met);
    }
}
