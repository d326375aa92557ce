//! Rows added (docs/SPECIFICATION.md, 4.4): a context filled, a listed record stored.

use super::listed::{fault, Tree};
use super::terms::Terms;
use crate::lent::{Lent, ROW_WORDS};

/// What adding rows comes to.
#[derive(Debug, PartialEq, Eq)]
pub enum Grown {
    Refused,
    Full,
    At {
        row: u16,
        used: u16,
        words: Vec<u32>,
    },
}

impl Terms {
    /// The row of a symbol and children, added if there is none; none if no row is left.
    fn row_for(&mut self, symbol: u32, children: &[u32]) -> Option<u32> {
        let mut places = [0; 4];
        places[..children.len()].copy_from_slice(children);
        let found = self.find((symbol, places));
        if found != 0 {
            return Some(found as u32);
        }
        if self.nodes.len() == self.room {
            return None;
        }
        self.nodes.push((symbol, places));
        Some(self.nodes.len() as u32 - 1)
    }

    /// A context with a row in place of the hole.
    fn filled(&mut self, context: u32, with: u32, holes: &[u8]) -> Option<u32> {
        if context == 0 {
            return Some(with);
        }
        let symbol = self.nodes[context as usize].0;
        let mut children = self.children(context as usize).to_vec();
        for child in &mut children {
            if holes[*child as usize] != 0 {
                *child = self.filled(*child, with, holes)?;
                break;
            }
        }
        self.row_for(symbol, &children)
    }

    /// The row of a record, subtrees first, left to right.
    fn stored(&mut self, tree: &Tree) -> Option<u32> {
        let mut children = Vec::new();
        for child in &tree.children {
            children.push(self.stored(child)?);
        }
        self.row_for(tree.symbol, &children)
    }

    /// What is left in the lent words: the new rows unanswered, the rest as it was.
    fn written(&self, lent: &Lent) -> Vec<u32> {
        let mut words = lent.words.clone();
        for (row, (symbol, places)) in self.nodes.iter().enumerate().skip(lent.used as usize) {
            let lent_row = &mut words[ROW_WORDS * row..ROW_WORDS * (row + 1)];
            lent_row[..2].copy_from_slice(&[*symbol, 0]);
            lent_row[2..].copy_from_slice(places);
        }
        words
    }

    fn grown(&self, lent: &Lent, row: Option<u32>) -> Grown {
        match row {
            None => Grown::Full,
            Some(row) => Grown::At {
                row: row as u16,
                used: self.nodes.len() as u16,
                words: self.written(lent),
            },
        }
    }
}

/// A used row with a hole, filled with a used row.
pub fn fill(lent: &Lent, context: u16, with: u16) -> Grown {
    let Some(mut terms) = Terms::read(lent) else {
        return Grown::Refused;
    };
    let holes = terms.hole_counts();
    if context >= lent.used || with >= lent.used || holes[context as usize] == 0 {
        return Grown::Refused;
    }
    let row = terms.filled(context as u32, with as u32, &holes);
    terms.grown(lent, row)
}

/// A listed record without fault, stored.
pub fn store(lent: &Lent, symbols: &[u8]) -> Grown {
    let Some(mut terms) = Terms::read(lent) else {
        return Grown::Refused;
    };
    if fault(&lent.counts, symbols) != 0 {
        return Grown::Refused;
    }
    let tree = Tree::of(&lent.counts, symbols);
    let row = terms.stored(&tree);
    terms.grown(lent, row)
}
