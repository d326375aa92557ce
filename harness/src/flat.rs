//! Full sound tables with contexts that are no members of C, scattered or made against the index. A look searches what each of
//! them fills to with every transition: two million searches, and most of them find nothing.
//!
//! The hole is the first child of each context. Against the index the contexts are all in the first quarter of a bucket, so that
//! what they fill to with one transition falls into one bucket, but for some that are carried into the next. In that bucket is a
//! path of rows whose keys begin as those do: the transition, a second child that is always the same, the zeros of the third.

use crate::aimed::near;
use crate::index_model::{bucket, nodes};
use crate::plain::Node;
use crate::random::Random;
use oracle::limits::{ROWS_MAX, ROW_WORDS, SYMBOLS_MAX};
use oracle::testing::big;
use oracle::testing::compare::Tables;
use std::collections::HashSet;
use std::ops::Range;

const BUCKETS: usize = 2 * ROWS_MAX;
/// Rows of the table that the others are added to, all but the first two of them records.
const LEARNT: u32 = 512;
/// The second child of all rows against the index.
const SECOND: u32 = 2;
/// Rows in the bucket of each transition.
const PATH: usize = 33;

struct Flat {
    tables: Tables,
    first_symbol: u32,
    taken: HashSet<Node>,
    /// The records by the buckets that they have alone as last child.
    last: Vec<Vec<u32>>,
}

impl Flat {
    /// Two states, 256 transitions and two contexts, and as many new symbols of four children as there can be.
    fn new() -> Flat {
        let mut tables = big::beside_flat();
        let lists = &mut tables.lists;
        let letters = lists.letters as usize;
        lists.counts[letters..].fill(4);
        (lists.letters, lists.used) = (SYMBOLS_MAX as u8, LEARNT as u16);
        let taken = nodes(&tables.words, lists.used).collect();
        let mut flat = Flat {
            tables,
            first_symbol: letters as u32,
            taken,
            last: vec![Vec::new(); BUCKETS],
        };
        (2..LEARNT).for_each(|record| flat.allow(record));
        flat
    }

    fn used(&self) -> u32 {
        self.tables.lists.used as u32
    }

    fn symbols(&self) -> Range<u32> {
        self.first_symbol..SYMBOLS_MAX as u32
    }

    fn allow(&mut self, record: u32) {
        self.last[bucket(BUCKETS, (0, [0, 0, 0, record]))].push(record);
    }

    /// Adds a row without an answer, if it is new and there is room.
    fn push(&mut self, node: Node) {
        let row = self.used() as usize;
        if row == ROWS_MAX || !self.taken.insert(node) {
            return;
        }
        let (symbol, [one, two, three, four]) = node;
        let words = &mut self.tables.words[row * ROW_WORDS..][..ROW_WORDS];
        words.copy_from_slice(&[symbol, 0, one, two, three, four]);
        self.tables.lists.used += 1;
    }

    /// The nodes with a first child that are in a bucket, by third children below an end, those with most zeros first.
    fn in_bucket(&self, first: u32, wanted: usize, end: u32) -> impl Iterator<Item = Node> + '_ {
        let zeros = (1..14).rev();
        let thirds = zeros.flat_map(move |zeros| (1 << zeros..end).step_by(2 << zeros));
        let pairs = thirds.flat_map(|third| self.symbols().map(move |symbol| (symbol, third)));
        pairs.flat_map(move |(symbol, third)| {
            let node = move |last| (symbol, [first, SECOND, third, last]);
            let nodes = near(&self.last, wanted, node(0)).map(node);
            nodes.filter(move |&node| bucket(BUCKETS, node) == wanted)
        })
    }

    fn push_all(&mut self, nodes: Vec<Node>) {
        nodes.into_iter().for_each(|node| self.push(node));
    }

    /// A path in the bucket of each transition, then contexts.
    fn against(mut self) -> Tables {
        for transition in self.tables.lists.t {
            let first = transition as u32;
            let wanted = bucket(BUCKETS, (0, [first, 0, 0, 0]));
            let path = self.in_bucket(first, wanted, LEARNT).take(PATH);
            self.push_all(path.collect());
        }
        let end = self.used();
        (LEARNT..end).for_each(|record| self.allow(record));
        let contexts = self.in_bucket(0, 0, end);
        let quarter = contexts.filter(|&node| bucket(4 * BUCKETS, node) == 0);
        self.push_all(quarter.collect());
        self.tables
    }

    /// Adds `rows` rows over any records. With the hole as first child they are contexts.
    fn scatter(&mut self, rows: usize, holed: bool, random: &mut Random) {
        let used = self.used() as usize;
        for _ in 0..2 * rows {
            if self.used() as usize == used + rows {
                return;
            }
            let symbol = self.symbols().start + random.below(self.symbols().len()) as u32;
            let mut places = [(); 4].map(|_| random.within(2, used - 1) as u32);
            if holed {
                places[0] = 0;
            }
            self.push((symbol, places));
        }
    }
}

/// The contexts that were added.
fn contexts(tables: &Tables) -> impl Iterator<Item = Node> + '_ {
    let added = nodes(&tables.words, tables.lists.used).skip(LEARNT as usize - 1);
    added.filter(|(_, places)| places[0] == 0)
}

/// What they fill to, with each transition.
pub fn filled(tables: &Tables) -> impl Iterator<Item = Node> + '_ {
    let transitions = tables.lists.t.iter().map(|&row| row as u32);
    transitions.flat_map(|row| {
        let fill = move |(symbol, places): Node| (symbol, [row, places[1], places[2], places[3]]);
        contexts(tables).map(fill)
    })
}

pub fn against() -> Tables {
    Flat::new().against()
}

/// The same numbers of records and contexts.
pub fn scattered() -> Tables {
    let against = against();
    let contexts = contexts(&against).count();
    let records = against.lists.used as usize - LEARNT as usize - contexts;
    let (mut flat, mut random) = (Flat::new(), Random::new(132));
    flat.scatter(records, false, &mut random);
    flat.scatter(contexts, true, &mut random);
    flat.tables
}
