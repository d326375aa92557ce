//! Nodes for new rows of a table: scattered, all in one bucket of the index, or made against its trees.
//!
//! A walk in a tree goes by the digits of the first child, then by those of the second, third and last. Nodes against the trees
//! have one row as first and as second child, and a third child whose number ends in as many binary zeros as can be. So their keys
//! share 28 digits and more, and as many rows are above each of them. But for a carry buckets add up: a row that puts a node into
//! a wanted bucket is found by the bucket that it has alone.

use crate::index_model::bucket;
use crate::plain::Node;
use crate::random::Random;
use std::collections::HashSet;
use std::ops::Range;

/// How nodes are chosen.
#[derive(Clone, Copy, Debug, PartialEq, Eq)]
pub enum Aim {
    Scattered,
    OneBucket,
    /// Against the trees, with this number of nodes in each.
    Trees(usize),
}

/// Draws for a scattered node, and at most for each node that a bucket may have.
const DRAWS: usize = 20;
/// Nodes of a tree that wait with the same number of zeros.
const WAITING: usize = 32;
/// Binary digits of a row.
const DIGITS: usize = 14;

/// A source of nodes over a growing set of children.
pub struct Nodes {
    aim: Aim,
    random: Random,
    symbols: Range<u32>,
    buckets: usize,
    children: Vec<u32>,
    /// The children by the buckets that they have alone, as third and as last child.
    third: Vec<Vec<u32>>,
    last: Vec<Vec<u32>>,
    /// For each tree the nodes that it can get, by the zeros of the third child.
    waiting: Vec<[Vec<Node>; DIGITS]>,
    taken: HashSet<Node>,
}

impl Nodes {
    /// A source of up to `nodes` nodes for an index that has room for `room` rows. Their symbols have four children. None of
    /// `taken` is drawn.
    pub fn new(
        aim: Aim,
        nodes: usize,
        room: usize,
        symbols: Range<u32>,
        taken: HashSet<Node>,
    ) -> Nodes {
        let buckets = 2 * room;
        let trees = match aim {
            Aim::Trees(each) => (nodes / each.max(1)).clamp(1, buckets),
            _ => 0,
        };
        Nodes {
            aim,
            random: Random::new(131),
            symbols,
            buckets,
            children: Vec::new(),
            third: vec![Vec::new(); buckets],
            last: vec![Vec::new(); buckets],
            waiting: vec![Default::default(); trees],
            taken,
        }
    }

    /// A row without a hole that can be a child from now on.
    pub fn allow(&mut self, row: u32) {
        self.children.push(row);
        self.third[bucket(self.buckets, (0, [0, 0, row, 0]))].push(row);
        self.last[bucket(self.buckets, (0, [0, 0, 0, row]))].push(row);
        for tree in 0..self.waiting.len() {
            for symbol in self.symbols.clone() {
                self.wait_for(tree, symbol, row);
            }
        }
    }

    /// The nodes of a tree that have a symbol, and a new child as third or as last, begin to wait.
    fn wait_for(&mut self, tree: usize, symbol: u32, row: u32) {
        let wanted = tree * self.buckets / self.waiting.len();
        let first = self.children[0];
        let lasts = near(&self.last, wanted, (symbol, [first, first, row, 0]));
        let thirds = near(&self.third, wanted, (symbol, [first, first, 0, row]));
        let lasts = lasts.map(|last| [row, last]);
        let thirds = thirds.filter(|&third| third != row);
        let pairs = lasts.chain(thirds.map(|third| [third, row]));
        let nodes = pairs.map(|[third, last]| (symbol, [first, first, third, last]));
        for node in nodes.filter(|&node| bucket(self.buckets, node) == wanted) {
            let zeros = node.1[2].trailing_zeros() as usize;
            let waiting = &mut self.waiting[tree][zeros.min(DIGITS - 1)];
            if waiting.len() < WAITING {
                waiting.push(node);
            }
        }
    }

    /// A new node over the children. It is scattered where none is left that the aim asks for, and there is none where the draws
    /// for it end first.
    pub fn draw(&mut self) -> Option<Node> {
        if self.children.is_empty() || self.symbols.is_empty() {
            return None;
        }
        let aimed = match self.aim {
            Aim::Scattered => None,
            Aim::OneBucket => self.in_one_bucket(),
            Aim::Trees(_) => self.in_a_tree(),
        };
        aimed.or_else(|| self.scattered())
    }

    fn symbol(&mut self) -> u32 {
        self.symbols.start + self.random.below(self.symbols.len()) as u32
    }

    fn child(&mut self) -> u32 {
        self.random.pick(&self.children)
    }

    fn scattered(&mut self) -> Option<Node> {
        (0..DRAWS).find_map(|_| {
            let node = (self.symbol(), [(); 4].map(|_| self.child()));
            self.taken.insert(node).then_some(node)
        })
    }

    /// A node of bucket 0 whose keys have nothing in common: the last child is chosen, all else is drawn.
    fn in_one_bucket(&mut self) -> Option<Node> {
        let children = self.children.len();
        let most = self.symbols.len() * children.pow(3);
        (0..DRAWS * most.min(self.buckets / children + 1)).find_map(|_| {
            let [one, two, three] = [(); 3].map(|_| self.child());
            let symbol = self.symbol();
            let lasts = near(&self.last, 0, (symbol, [one, two, three, 0]));
            let nodes = lasts.map(|last| (symbol, [one, two, three, last]));
            let mut nodes = nodes.filter(|&node| bucket(self.buckets, node) == 0);
            nodes.find(|&node| self.taken.insert(node))
        })
    }

    /// The node with the most zeros of a tree that is drawn, or of a later one if that has none.
    fn in_a_tree(&mut self) -> Option<Node> {
        let trees = self.waiting.len();
        let first = self.random.below(trees);
        for tree in (first..trees).chain(0..first) {
            for waiting in self.waiting[tree].iter_mut().rev() {
                while let Some(node) = waiting.pop() {
                    if self.taken.insert(node) {
                        return Some(node);
                    }
                }
            }
        }
        None
    }
}

/// The rows that can put a node into a bucket, from lists of rows by the buckets that they have alone: without a carry, and with one.
pub fn near(alone: &[Vec<u32>], wanted: usize, node: Node) -> impl Iterator<Item = u32> + '_ {
    let buckets = alone.len();
    let lacks = wanted + buckets - bucket(buckets, node);
    let both = [lacks % buckets, (lacks - 1) % buckets];
    both.into_iter()
        .flat_map(|bucket| alone[bucket].iter().copied())
}
