//! Tables of which T1 holds, scattered or made against the index (`crates/bank/src/index.rt`).

use crate::aimed::{Aim, Nodes};
use crate::lent::Lent;
use std::collections::HashSet;

/// A sort of tables: how their nodes are chosen, and of how many symbols.
#[derive(Clone, Copy, Debug)]
pub struct Sort {
    pub name: &'static str,
    pub aim: Aim,
    /// Symbols without children, each of which has a row.
    leaves: u32,
    /// Symbols of four children.
    parents: u32,
}

const fn sort(name: &'static str, aim: Aim, leaves: u32, parents: u32) -> Sort {
    Sort {
        name,
        aim,
        leaves,
        parents,
    }
}

/// Few symbols: a row on the way often has the symbol that is looked for, and a processor cannot predict which. The longest times.
pub const FEW: [Sort; 3] = [
    sort("scattered", Aim::Scattered, 20, 4),
    sort("in one bucket", Aim::OneBucket, 20, 4),
    sort("against the trees", Aim::Trees(128), 20, 4),
];

/// All symbols, so that there are the most nodes to choose from. The longest walks.
pub const ALL: [Sort; 3] = [
    sort("scattered", Aim::Scattered, 1, 63),
    sort("in one bucket", Aim::OneBucket, 1, 63),
    sort("against the trees", Aim::Trees(4_096), 1, 63),
];

impl Sort {
    /// A table with `rows` used rows, for an index that has room for `room`.
    pub fn table(&self, rows: usize, room: usize) -> Lent {
        let mut counts = vec![0; self.leaves as usize];
        counts.resize((self.leaves + self.parents) as usize, 4);
        let mut lent = Lent::with_hole(&counts);
        let symbols = self.leaves..self.leaves + self.parents;
        let mut nodes = Nodes::new(self.aim, rows, room, symbols, HashSet::new());
        for leaf in 0..self.leaves {
            nodes.allow(lent.push(leaf, 0, [0; 4]));
        }
        while (lent.used as usize) < rows {
            let Some((symbol, places)) = nodes.draw() else {
                break;
            };
            let answer = lent.used as u32 % 3;
            nodes.allow(lent.push(symbol, answer, places));
        }
        lent
    }
}
