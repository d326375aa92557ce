//! The same work as one would first write it in Rust, to measure bank against: one pass over the
//! rows with a `HashMap` as index, and filling by recursion.

use crate::lent::{Lent, HOLE_WORDS, ROWS_MAX, ROW_WORDS};
use crate::plain::Node;
use std::collections::HashMap;

pub struct Hashed {
    counts: Vec<u8>,
    room: usize,
    nodes: Vec<Node>,
    holed: Vec<bool>,
    rows: HashMap<Node, u32>,
}

impl Hashed {
    /// T1, with the index built in the same pass; none where it fails.
    pub fn read(lent: &Lent) -> Option<Hashed> {
        let room = lent.words.len() / ROW_WORDS;
        let used = lent.used as usize;
        let letters = lent.counts.len();
        let sized = lent.words.len().is_multiple_of(ROW_WORDS) && (1..=ROWS_MAX).contains(&room);
        let alphabet = (1..=64).contains(&letters) && lent.counts.iter().all(|&count| count <= 4);
        if !sized || !alphabet || !(1..=room).contains(&used) || lent.row(0) != HOLE_WORDS {
            return None;
        }
        let mut read = Hashed {
            counts: lent.counts.clone(),
            room,
            nodes: vec![(255, [0; 4])],
            holed: vec![true],
            rows: HashMap::with_capacity(used),
        };
        for row in 1..used {
            let node = (lent.symbol(row), lent.places(row));
            read.enter(node, lent.row(row)[1])?;
        }
        Some(read)
    }

    /// Checks one row and enters it.
    fn enter(&mut self, node: Node, answer: u32) -> Option<()> {
        let (symbol, places) = node;
        let count = *self.counts.get(symbol as usize)? as usize;
        let mut holes = 0;
        for &child in &places[..count] {
            holes += usize::from(*self.holed.get(child as usize)?);
        }
        let rest = places[count..].iter().all(|&place| place == 0);
        let answered = answer <= 2 && (holes == 0 || answer == 0);
        let twin = self.rows.insert(node, self.nodes.len() as u32);
        self.nodes.push(node);
        self.holed.push(holes == 1);
        (rest && answered && holes < 2 && twin.is_none()).then_some(())
    }

    pub fn find(&self, node: Node) -> Option<u32> {
        self.rows.get(&node).copied()
    }

    /// A context with a row in place of the hole; none if rows run out.
    pub fn fill(&mut self, context: u32, with: u32) -> Option<u32> {
        if context == 0 {
            return Some(with);
        }
        let mut node = self.nodes[context as usize];
        let count = self.counts[node.0 as usize] as usize;
        let mut children = node.1[..count].iter();
        let place = children.position(|child| self.holed(*child))?;
        node.1[place] = self.fill(node.1[place], with)?;
        if let Some(row) = self.find(node) {
            return Some(row);
        }
        if self.nodes.len() == self.room {
            return None;
        }
        self.enter(node, 0)?;
        Some(self.nodes.len() as u32 - 1)
    }

    fn holed(&self, row: u32) -> bool {
        self.holed[row as usize]
    }
}
