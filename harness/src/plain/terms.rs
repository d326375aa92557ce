//! T1 (docs/SPECIFICATION.md, 2.3), one function a clause, and the terms of a table that it holds of.

use crate::lent::{Lent, HOLE_WORDS, ROWS_MAX, ROW_WORDS};
use std::collections::HashMap;

/// Symbol and child places of a row.
pub type Node = (u32, [u32; 4]);

/// The used rows of a table of which T1 holds.
#[derive(Clone)]
pub struct Terms {
    pub counts: Vec<u8>,
    /// How many rows are lent.
    pub room: usize,
    pub nodes: Vec<Node>,
}

/// T1 of whatever is lent, behind the test of the size.
pub fn passes(lent: &Lent) -> bool {
    if !size_fits(lent) || !alphabet_fits(&lent.counts) || !used_fits(lent) {
        return false;
    }
    let terms = Terms::unchecked(lent);
    lent.row(0) == HOLE_WORDS
        && terms.children_fit()
        && terms.holes_fit()
        && answers_fit(lent, &terms)
        && terms.all_distinct()
}

/// Refusal 18: whole rows, 1 to 16,384.
fn size_fits(lent: &Lent) -> bool {
    let rows = lent.words.len() / ROW_WORDS;
    rows * ROW_WORDS == lent.words.len() && 0 < rows && rows <= ROWS_MAX
}

/// 1 to 64 symbols with at most 4 children.
fn alphabet_fits(counts: &[u8]) -> bool {
    !counts.is_empty() && counts.len() <= 64 && counts.iter().all(|&count| count <= 4)
}

/// Row 0 is used, and no more rows than are lent.
fn used_fits(lent: &Lent) -> bool {
    0 < lent.used && ROW_WORDS * lent.used as usize <= lent.words.len()
}

/// Answers are 0, 1 or 2, and 0 where there is a hole.
fn answers_fit(lent: &Lent, terms: &Terms) -> bool {
    let holes = terms.hole_counts();
    (1..lent.used as usize).all(|row| {
        let answer = lent.row(row)[1];
        answer <= 2 && (holes[row] == 0 || answer == 0)
    })
}

impl Terms {
    /// The terms of a table, unless T1 fails.
    pub fn read(lent: &Lent) -> Option<Terms> {
        passes(lent).then(|| Terms::unchecked(lent))
    }

    fn unchecked(lent: &Lent) -> Terms {
        let used = 0..lent.used as usize;
        Terms {
            counts: lent.counts.clone(),
            room: lent.words.len() / ROW_WORDS,
            nodes: used
                .map(|row| (lent.symbol(row), lent.places(row)))
                .collect(),
        }
    }

    /// The children of a row other than row 0.
    pub fn children(&self, row: usize) -> &[u32] {
        let (symbol, places) = &self.nodes[row];
        &places[..self.counts[*symbol as usize] as usize]
    }

    /// Every row has a known symbol, earlier rows as children, and 0 in the places left.
    fn children_fit(&self) -> bool {
        (1..self.nodes.len()).all(|row| {
            let (symbol, places) = self.nodes[row];
            let Some(&count) = self.counts.get(symbol as usize) else {
                return false;
            };
            let (children, left) = places.split_at(count as usize);
            children.iter().all(|&child| (child as usize) < row)
                && left.iter().all(|&place| place == 0)
        })
    }

    /// How many holes each row has when it is unfolded; 2 stands for more.
    pub fn hole_counts(&self) -> Vec<u8> {
        let mut known = vec![None; self.nodes.len()];
        (0..self.nodes.len())
            .map(|row| self.hole_count(row, &mut known))
            .collect()
    }

    fn hole_count(&self, row: usize, known: &mut [Option<u8>]) -> u8 {
        if let Some(count) = known[row] {
            return count;
        }
        let mut count = u8::from(row == 0);
        if row != 0 {
            for &child in self.children(row) {
                count += self.hole_count(child as usize, known);
                count = count.min(2);
            }
        }
        known[row] = Some(count);
        count
    }

    fn holes_fit(&self) -> bool {
        self.hole_counts().iter().all(|&count| count < 2)
    }

    /// No two rows but row 0 are equal.
    fn all_distinct(&self) -> bool {
        let mut first = HashMap::new();
        (1..self.nodes.len()).all(|row| first.insert(self.nodes[row], row).is_none())
    }

    /// For each row the place, plus one, of its child with the hole; 0 for none.
    pub fn marks(&self) -> Vec<u16> {
        let holes = self.hole_counts();
        let mark = |row: usize| {
            let mut children = self.children(row).iter();
            match children.position(|&child| holes[child as usize] != 0) {
                Some(place) => place as u16 + 1,
                None => 0,
            }
        };
        let rows = 1..self.nodes.len();
        std::iter::once(0).chain(rows.map(mark)).collect()
    }

    /// The row with that symbol and those places; 0 for none.
    pub fn find(&self, node: Node) -> u16 {
        let mut rows = 1..self.nodes.len();
        rows.find(|&row| self.nodes[row] == node).unwrap_or(0) as u16
    }
}
