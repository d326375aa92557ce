//! The record table as a call works on it: read once, checked (T1), added to in
//! memory of the call's own, and written back only when the call is taken. So a
//! refusal leaves the lent rows alone, those past the used ones included.

use crate::index::{Index, Key};
use crate::lent::{Lists, Refusal, Row};
use crate::limits::{CHILDREN_MAX, HOLE_SYMBOL, ROWS_MAX, ROW_WORDS, SYMBOLS_MAX};

/// Row 0 as it is lent (docs/SPECIFICATION.md, 2.1).
pub const HOLE_WORDS: [u32; ROW_WORDS] = [HOLE_SYMBOL, 0, 0, 0, 0, 0];

/// An answer not known yet.
pub const UNKNOWN: u8 = 0;
/// The stored code of a yes; a no is one less.
pub const YES: u8 = 2;

/// Refusal 18: the slice is whole rows, 1 to 16,384 of them.
pub fn check_size(words: &[u32]) -> Result<(), Refusal> {
    let rows = words.len() / ROW_WORDS;
    if words.len().is_multiple_of(ROW_WORDS) && (1..=ROWS_MAX).contains(&rows) {
        Ok(())
    } else {
        Err(Refusal::BadTable)
    }
}

/// Refusal 17, and a part of T1: 1 to 64 symbols with at most 4 children.
pub fn alphabet_fits(counts: &[u8]) -> bool {
    (1..=SYMBOLS_MAX).contains(&counts.len())
        && counts.iter().all(|&count| count as usize <= CHILDREN_MAX)
}

/// The used rows, by column, with an index from contents to row.
pub struct Records {
    letters: usize,
    counts: [u8; SYMBOLS_MAX],
    lent: usize,
    keys: Vec<Key>,
    answers: Vec<u8>,
    holed: Vec<bool>,
    index: Index,
}

impl Records {
    /// Reads the used rows bottom up, one pass; none unless T1 holds. The size of
    /// `words` and the ends of `lists` are checked before.
    pub fn read(words: &[u32], lists: &Lists) -> Option<Records> {
        let used = lists.used as usize;
        let lent = words.len() / ROW_WORDS;
        if used == 0 || used > lent || !alphabet_fits(lists.alphabet()) {
            return None;
        }
        if words[..ROW_WORDS] != HOLE_WORDS {
            return None;
        }
        let mut records = Records::with_hole(lists, lent);
        for row in words[ROW_WORDS..used * ROW_WORDS].chunks_exact(ROW_WORDS) {
            records.read_row(row)?;
        }
        Some(records)
    }

    /// The table that holds row 0 alone.
    fn with_hole(lists: &Lists, lent: usize) -> Records {
        let used = lists.used as usize;
        let mut records = Records {
            letters: lists.letters as usize,
            counts: lists.counts,
            lent,
            keys: Vec::with_capacity(used + 64),
            answers: Vec::with_capacity(used + 64),
            holed: Vec::with_capacity(used + 64),
            index: Index::with_room(used),
        };
        records.keys.push(Key::HOLE);
        records.answers.push(UNKNOWN);
        records.holed.push(true);
        records
    }

    /// Checks one row against T1 and appends it.
    fn read_row(&mut self, words: &[u32]) -> Option<()> {
        let (symbol, answer) = (words[0], words[1]);
        if symbol as usize >= self.letters || answer > YES as u32 {
            return None;
        }
        let count = self.counts[symbol as usize] as usize;
        let mut key = Key::of_symbol(symbol as u8);
        let mut holes = 0;
        for (place, &child) in words[2..].iter().enumerate() {
            if place < count {
                holes += usize::from(*self.holed.get(child as usize)?);
                key = key.with_child(place, child as Row);
            } else if child != 0 {
                return None;
            }
        }
        if holes > 1 || holes == 1 && answer as u8 != UNKNOWN {
            return None;
        }
        self.push(key, answer as u8, holes == 1).then_some(())
    }

    /// Appends a row; false if an equal one is there.
    fn push(&mut self, key: Key, answer: u8, holed: bool) -> bool {
        let row = self.keys.len() as Row;
        self.keys.push(key);
        self.answers.push(answer);
        self.holed.push(holed);
        self.index.enter(row, &self.keys)
    }

    /// Rows in use, row 0 included.
    pub fn used(&self) -> usize {
        self.keys.len()
    }

    /// The symbols of the alphabet.
    pub fn letters(&self) -> usize {
        self.letters
    }

    /// The child count of a known symbol.
    pub fn count(&self, symbol: u8) -> usize {
        self.counts[symbol as usize] as usize
    }

    pub fn key(&self, row: Row) -> Key {
        self.keys[row as usize]
    }

    /// The children of a row other than row 0, left to right.
    pub fn children(&self, row: Row) -> impl Iterator<Item = Row> {
        let key = self.keys[row as usize];
        (0..self.count(key.symbol())).map(move |place| key.child(place))
    }

    /// The stored code: 0 unknown, 1 no, 2 yes.
    pub fn answer(&self, row: Row) -> u8 {
        self.answers[row as usize]
    }

    pub fn set_answer(&mut self, row: Row, answer: u8) {
        self.answers[row as usize] = answer;
    }

    /// Whether the row is a context.
    pub fn holed(&self, row: Row) -> bool {
        self.holed[row as usize]
    }

    /// Whether a number from the lists is a used row without hole.
    pub fn is_record(&self, row: Row) -> bool {
        (row as usize) < self.used() && !self.holed[row as usize]
    }

    #[inline]
    pub fn find(&self, key: Key) -> Option<Row> {
        self.index.find(key, &self.keys)
    }

    /// The row with these contents, appended if absent; 34 when no row is left.
    pub fn find_or_add(&mut self, key: Key) -> Result<Row, Refusal> {
        if let Some(row) = self.find(key) {
            return Ok(row);
        }
        if self.used() == self.lent {
            return Err(Refusal::RowsRunOut);
        }
        let row = self.used() as Row;
        let count = self.count(key.symbol());
        let holed = (0..count).any(|place| self.holed(key.child(place)));
        self.push(key, UNKNOWN, holed);
        Ok(row)
    }

    /// The row of `parents` (from the root down, each with the place of its next one)
    /// with another row below the last: the way back up adds what is absent, children
    /// first. It opens questions and makes contexts (4.4).
    pub fn rebuild(&mut self, parents: &[(Row, usize)], bottom: Row) -> Result<Row, Refusal> {
        parents
            .iter()
            .rev()
            .try_fold(bottom, |below, &(row, place)| {
                self.find_or_add(self.key(row).with_child(place, below))
            })
    }

    /// Writes the answer of one row into the lent table.
    pub fn write_answer(&self, row: Row, words: &mut [u32]) {
        words[row as usize * ROW_WORDS + 1] = self.answer(row) as u32;
    }

    /// Writes the rows from `first` on into the lent table.
    pub fn write_from(&self, first: usize, words: &mut [u32]) {
        let rows = words.chunks_exact_mut(ROW_WORDS).enumerate();
        for (row, lent) in rows.take(self.used()).skip(first) {
            let key = self.keys[row];
            lent[0] = key.symbol() as u32;
            lent[1] = self.answers[row] as u32;
            for (place, child) in lent[2..].iter_mut().enumerate() {
                *child = key.child(place) as u32;
            }
        }
    }
}
