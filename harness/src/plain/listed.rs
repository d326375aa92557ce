//! Listed records (docs/SPECIFICATION.md, 1.2, 3.4): read into trees, judged, looked up.

use super::terms::Terms;
use crate::lent::Lent;

#[derive(Clone, Debug)]
pub struct Tree {
    pub symbol: u32,
    pub children: Vec<Tree>,
}

/// Reads symbols, children before parent: the trees at the end, or the fault at the first symbol
/// that has one.
fn read(counts: &[u8], symbols: &[u8]) -> Result<Vec<Tree>, u8> {
    let mut trees: Vec<Tree> = Vec::new();
    for &symbol in symbols {
        let count = *counts.get(symbol as usize).ok_or(13)? as usize;
        let first = trees.len().checked_sub(count).ok_or(14)?;
        let children = trees.split_off(first);
        trees.push(Tree {
            symbol: symbol as u32,
            children,
        });
    }
    Ok(trees)
}

/// The number of a listed record's fault; 0 for none.
pub fn fault(counts: &[u8], symbols: &[u8]) -> u8 {
    match symbols.len() {
        0 => 11,
        1..=1_024 => match read(counts, symbols) {
            Err(number) => number,
            Ok(trees) if trees.len() == 1 => 0,
            Ok(_) => 15,
        },
        _ => 12,
    }
}

impl Tree {
    /// The tree of a listed record without fault.
    pub fn of(counts: &[u8], symbols: &[u8]) -> Tree {
        let trees = read(counts, symbols).unwrap_or_default();
        trees.into_iter().next().expect("a record without fault")
    }
}

impl Terms {
    fn row_of(&self, tree: &Tree) -> Option<u32> {
        let mut places = [0; 4];
        for (place, child) in places.iter_mut().zip(&tree.children) {
            *place = self.row_of(child)?;
        }
        match self.find((tree.symbol, places)) {
            0 => None,
            row => Some(row as u32),
        }
    }
}

/// The row of a listed record; 0 for none, for one at fault, and where T1 fails.
pub fn known(lent: &Lent, symbols: &[u8]) -> u16 {
    let Some(terms) = Terms::read(lent) else {
        return 0;
    };
    if fault(&lent.counts, symbols) != 0 {
        return 0;
    }
    let tree = Tree::of(&lent.counts, symbols);
    terms.row_of(&tree).unwrap_or(0) as u16
}
