//! A hash index from symbol and children to the row that holds them.
//!
//! A row's symbol and children fit one 64-bit key, so a lookup is one multiplication
//! and, at half load, about one comparison. The seed is new for each index: contents
//! that collide under one seed do not under the next.

use crate::lent::Row;
use crate::limits::CHILDREN_MAX;
use std::collections::hash_map::RandomState;
use std::hash::BuildHasher;

/// Symbol and children of a row: 14 bits for each child, the symbol above them.
#[derive(Clone, Copy, PartialEq, Eq)]
pub struct Key(u64);

const CHILD_BITS: usize = 14;
const CHILD_MASK: u64 = (1 << CHILD_BITS) - 1;

impl Key {
    /// Row 0 has no key of its own; no row equals this one.
    pub const HOLE: Key = Key(u64::MAX);

    /// A symbol below 64 whose child places are all 0.
    pub fn of_symbol(symbol: u8) -> Key {
        Key((symbol as u64) << (CHILD_BITS * CHILDREN_MAX))
    }

    pub fn symbol(self) -> u8 {
        (self.0 >> (CHILD_BITS * CHILDREN_MAX)) as u8
    }

    pub fn child(self, place: usize) -> Row {
        (self.0 >> (CHILD_BITS * place) & CHILD_MASK) as Row
    }

    /// This key with another row, below 16,384, at one place.
    pub fn with_child(self, place: usize, row: Row) -> Key {
        let low = CHILD_BITS * place;
        Key(self.0 & !(CHILD_MASK << low) | (row as u64) << low)
    }
}

/// Open addressing over row numbers; 0 marks a free slot, as row 0 is never entered.
pub struct Index {
    slots: Vec<Row>,
    entries: usize,
    shift: u32,
    seed: u64,
    factor: u64,
}

impl Index {
    /// An empty index with room for so many rows at half load.
    pub fn with_room(rows: usize) -> Index {
        let random = RandomState::new();
        let size = (2 * rows + 64).next_power_of_two();
        Index {
            slots: vec![0; size],
            entries: 0,
            shift: 64 - size.trailing_zeros(),
            seed: random.hash_one(0u8),
            factor: random.hash_one(1u8) | 1,
        }
    }

    /// The first slot of a key: both halves of a product with a secret factor, folded.
    #[inline]
    fn home(&self, key: Key) -> usize {
        let product = (key.0 ^ self.seed) as u128 * self.factor as u128;
        let folded = (product as u64) ^ (product >> 64) as u64;
        (folded.wrapping_mul(0x9E37_79B9_7F4A_7C15) >> self.shift) as usize
    }

    /// The row with this key, or the free slot where it would go. Half of the slots are free.
    #[inline]
    fn seek(&self, key: Key, keys: &[Key]) -> Result<Row, usize> {
        let mask = self.slots.len() - 1;
        let mut slot = self.home(key);
        loop {
            match self.slots[slot & mask] {
                0 => return Err(slot & mask),
                row if keys[row as usize] == key => return Ok(row),
                _ => slot += 1,
            }
        }
    }

    /// The row with this key; `keys` are the keys of all rows entered.
    #[inline]
    pub fn find(&self, key: Key, keys: &[Key]) -> Option<Row> {
        self.seek(key, keys).ok()
    }

    /// Enters a row; false, and no change, if an equal row is there.
    pub fn enter(&mut self, row: Row, keys: &[Key]) -> bool {
        match self.seek(keys[row as usize], keys) {
            Ok(_) => false,
            Err(slot) => {
                self.slots[slot] = row;
                self.entries += 1;
                if 2 * self.entries > self.slots.len() {
                    self.grow(keys);
                }
                true
            }
        }
    }

    /// Doubles the slots and enters all rows again.
    fn grow(&mut self, keys: &[Key]) {
        let mut larger = Index::with_room(self.slots.len());
        for &row in self.slots.iter().filter(|&&row| row != 0) {
            larger.enter(row, keys);
        }
        *self = larger;
    }
}
