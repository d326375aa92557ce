//! Sound tables with more records, scattered or made against the index.

use crate::aimed::{Aim, Nodes};
use crate::index_model;
use crate::strange::Strange;
use crate::teaching::started;
use oracle::limits::SYMBOLS_MAX;
use oracle::testing::compare::Tables;
use oracle::testing::random::Random;
use std::ops::Range;

/// Sound tables that get records over new symbols of four children.
pub struct Crowded {
    random: Random,
    pub strange: Strange,
    rows: usize,
    symbols: Range<u32>,
}

impl Crowded {
    /// Up to `symbols` symbols more. `rows` rows are lent, and the index has room for as many.
    pub fn over(mut tables: Tables, symbols: usize, rows: usize) -> Crowded {
        let letters = tables.lists.letters as usize;
        let end = SYMBOLS_MAX.min(letters + symbols);
        tables.lists.counts[letters..end].fill(4);
        tables.lists.letters = end as u8;
        Crowded {
            random: Random::new(131),
            strange: Strange::of(tables, rows),
            rows,
            symbols: letters as u32..end as u32,
        }
    }

    /// Nothing learnt, and a record for each of `leaves` symbols without children.
    pub fn over_leaves(leaves: usize, symbols: usize, rows: usize) -> Crowded {
        let mut strange = Strange::of(started(&vec![0; leaves], rows), rows);
        for leaf in 0..leaves {
            strange.record(leaf, &[], 0);
        }
        Crowded::over(strange.tables, symbols, rows)
    }

    pub fn room(&self) -> usize {
        self.strange.room()
    }

    /// Adds `rows` records; fewer if the rows or the draws for them end first. Few children have few parents: one child has one
    /// of each symbol.
    pub fn add(&mut self, aim: Aim, rows: usize) {
        let rows = rows.min(self.room());
        let Tables { words, lists } = &self.strange.tables;
        let taken = index_model::nodes(words, lists.used).collect();
        let mut nodes = Nodes::new(aim, rows, self.rows, self.symbols.clone(), taken);
        for &record in &self.strange.records {
            nodes.allow(record as u32);
        }
        for _ in 0..rows {
            let Some((symbol, places)) = nodes.draw() else {
                return;
            };
            let children = places.map(|place| place as u16);
            let answer = self.random.below(3) as u32;
            let row = self.strange.record(symbol as usize, &children, answer);
            nodes.allow(row as u32);
        }
    }

    /// The same tables with such records in all rows that were left.
    pub fn filled(mut self, aim: Aim) -> Tables {
        self.add(aim, self.room());
        self.strange.tables
    }
}
