//! Listed records: symbols, children before parent
//! (docs/SPECIFICATION.md, 3.4, 3.8 and 5.1).

use crate::index::Key;
use crate::lent::{Refusal, Row};
use crate::limits::RECORD_MAX;
use crate::run::Run;

impl Run {
    /// The form of a listed record: 11, 12, then 13 or 14 at the first symbol at fault,
    /// then 15.
    pub fn check_listed(&self, symbols: &[u8]) -> Result<(), Refusal> {
        match symbols.len() {
            0 => return Err(Refusal::EmptyRecord),
            length if length > RECORD_MAX => return Err(Refusal::LongRecord),
            _ => {}
        }
        let mut trees: usize = 0;
        for &symbol in symbols {
            if symbol as usize >= self.records.letters() {
                return Err(Refusal::UnknownSymbol);
            }
            let rest = trees.checked_sub(self.records.count(symbol));
            trees = rest.ok_or(Refusal::FewChildren)? + 1;
        }
        match trees {
            1 => Ok(()),
            _ => Err(Refusal::ManyTrees),
        }
    }

    /// The contents of a row: a symbol over the last rows of a stack, which it takes off.
    fn take_key(&self, symbol: u8, rows: &mut Vec<Row>) -> Key {
        let rest = rows.len() - self.records.count(symbol);
        let mut key = Key::of_symbol(symbol);
        for (place, &child) in rows[rest..].iter().enumerate() {
            key = key.with_child(place, child);
        }
        rows.truncate(rest);
        key
    }

    /// The row of a record of the right form, if it is stored.
    pub fn find_listed(&self, symbols: &[u8]) -> Option<Row> {
        let mut rows: Vec<Row> = Vec::new();
        for &symbol in symbols {
            let key = self.take_key(symbol, &mut rows);
            rows.push(self.records.find(key)?);
        }
        rows.pop()
    }

    /// Adds the rows of a record of the right form, children first, left to right (4.4).
    pub fn store_listed(&mut self, symbols: &[u8]) -> Result<Row, Refusal> {
        let mut rows: Vec<Row> = Vec::new();
        for &symbol in symbols {
            let key = self.take_key(symbol, &mut rows);
            rows.push(self.records.find_or_add(key)?);
        }
        Ok(rows[0])
    }
}
