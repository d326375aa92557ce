//! A record table as a host lends it (docs/SPECIFICATION.md, 2.1), right or wrong.

use std::fmt;

/// Numbers of a row: symbol, answer, four child places.
pub const ROW_WORDS: usize = 6;
/// The most rows that may be lent.
pub const ROWS_MAX: usize = 16_384;
/// Row 0.
pub const HOLE_WORDS: [u32; ROW_WORDS] = [255, 0, 0, 0, 0, 0];

#[derive(Clone, PartialEq, Eq)]
pub struct Lent {
    pub words: Vec<u32>,
    pub counts: Vec<u8>,
    pub used: u16,
}

impl Lent {
    /// The table that holds row 0 alone, all of its rows used by what is pushed.
    pub fn with_hole(counts: &[u8]) -> Lent {
        Lent {
            words: HOLE_WORDS.to_vec(),
            counts: counts.to_vec(),
            used: 1,
        }
    }

    /// Appends a used row; its number.
    pub fn push(&mut self, symbol: u32, answer: u32, places: [u32; 4]) -> u32 {
        let row = self.used as u32;
        self.words.extend([symbol, answer]);
        self.words.extend(places);
        self.used += 1;
        row
    }

    /// The same with so many rows lent, the new ones full of a number.
    pub fn with_rows(mut self, rows: usize, filler: u32) -> Lent {
        self.words.resize(rows * ROW_WORDS, filler);
        self
    }

    pub fn row(&self, row: usize) -> &[u32] {
        &self.words[ROW_WORDS * row..ROW_WORDS * (row + 1)]
    }

    pub fn symbol(&self, row: usize) -> u32 {
        self.row(row)[0]
    }

    pub fn places(&self, row: usize) -> [u32; 4] {
        let places = &self.row(row)[2..];
        [places[0], places[1], places[2], places[3]]
    }
}

/// Small tables are printed whole, a row a line.
impl fmt::Debug for Lent {
    fn fmt(&self, out: &mut fmt::Formatter) -> fmt::Result {
        writeln!(out, "counts {:?}, used {}", self.counts, self.used)?;
        writeln!(out, "{} words", self.words.len())?;
        if self.words.len() <= 60 * ROW_WORDS {
            for (row, words) in self.words.chunks(ROW_WORDS).enumerate() {
                writeln!(out, "{row:>4}: {words:?}")?;
            }
        }
        Ok(())
    }
}
