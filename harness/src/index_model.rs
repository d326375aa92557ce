//! The index of `crates/bank/src/index.rt` in plain Rust: which bucket and key a node has, and how many rows a search compares.

use crate::lent::ROW_WORDS;
use crate::plain::Node;
use std::fmt;

/// The multipliers of the symbol and of the four places.
pub const MULTIPLIERS: [u64; 5] = [499994353, 314606869, 217645199, 443834137, 125640277];

/// No search compares more rows, whatever the table holds (`crates/bank/proofs/Laws/Depth.antt`, `walk-short`).
pub const MOST_COMPARED: usize = 63;

/// The rooms that calls work in, as rows.
pub const ROOMS: [usize; 4] = [384, 1_024, 2_048, 16_384];

/// The bucket of a node.
pub fn bucket(buckets: usize, (symbol, places): Node) -> usize {
    let products = places.iter().zip(&MULTIPLIERS[1..]);
    let sum: u64 = products.map(|(&place, factor)| place as u64 * factor).sum();
    let sum = symbol as u64 * MULTIPLIERS[0] + sum;
    ((sum % (1 << 31) * buckets as u64) >> 31) as usize
}

/// The key of a node. A walk goes by its binary digits, the lowest first.
pub fn key((symbol, places): Node) -> u64 {
    let upper = symbol as u64 % 256;
    let digit = |upper: u64, &place: &u32| place as u64 % 16_384 + 16_384 * upper;
    places.iter().rev().fold(upper, digit)
}

/// Symbol and child places of the used rows but row 0, in order.
pub fn nodes(words: &[u32], used: u16) -> impl Iterator<Item = Node> + '_ {
    let rows = words.chunks_exact(ROW_WORDS).take(used as usize).skip(1);
    rows.map(|row| (row[0], [row[2], row[3], row[4], row[5]]))
}

/// An index over rows of which T1 holds: two buckets for each row that there is room for, in each bucket a tree.
pub struct Index {
    room: usize,
    nodes: Vec<Node>,
    /// Two links for each row, and behind them the first row of each bucket; 0 for none.
    slots: Vec<u16>,
}

impl Index {
    pub fn of(room: usize, words: &[u32], used: u16) -> Index {
        let mut index = Index {
            room,
            nodes: vec![(255, [0; 4])],
            slots: vec![0; 4 * room],
        };
        for node in nodes(words, used) {
            let (slot, _) = index.seek(node);
            index.slots[slot] = index.nodes.len() as u16;
            index.nodes.push(node);
        }
        index
    }

    /// Where the walk of a node ends, and how many rows it compares. Links lead to later rows, so that it ends.
    fn seek(&self, node: Node) -> (usize, usize) {
        let mut slot = 2 * self.room + bucket(2 * self.room, node);
        let mut way = key(node);
        let mut compared = 0;
        while self.slots[slot] != 0 {
            let row = self.slots[slot] as usize;
            compared += 1;
            if self.nodes[row] == node {
                break;
            }
            slot = 2 * row + (way % 2) as usize;
            way /= 2;
        }
        (slot, compared)
    }

    /// How many rows a search for a node compares.
    pub fn compared(&self, node: Node) -> usize {
        self.seek(node).1
    }

    /// The searches for some nodes.
    pub fn searches(&self, nodes: impl Iterator<Item = Node>) -> Walks {
        let compared = nodes.map(|node| self.compared(node));
        compared.fold(Walks::default(), Walks::with)
    }

    /// The searches for all rows.
    pub fn walks(&self) -> Walks {
        self.searches(self.nodes.iter().skip(1).copied())
    }
}

/// How many rows searches compare.
#[derive(Clone, Copy, Debug, Default)]
pub struct Walks {
    searches: usize,
    compared: usize,
    pub most: usize,
}

impl Walks {
    fn with(self, compared: usize) -> Walks {
        Walks {
            searches: self.searches + 1,
            compared: self.compared + compared,
            most: self.most.max(compared),
        }
    }

    pub fn mean(&self) -> f64 {
        self.compared as f64 / self.searches.max(1) as f64
    }
}

impl fmt::Display for Walks {
    fn fmt(&self, out: &mut fmt::Formatter) -> fmt::Result {
        let (mean, most) = (self.mean(), self.most);
        write!(out, "{mean:.1} rows compared on average, {most} at most")
    }
}
