//! Tables of which T1 holds: random ones, and a chain.

use crate::lent::{Lent, ROW_WORDS};
use crate::random::Random;
use std::collections::HashSet;

/// 1 to 64 symbols with 0 to 4 children each; most have one that stands alone.
pub fn alphabet(random: &mut Random) -> Vec<u8> {
    let most = random.pick(&[2, 4, 8, 64]);
    let letters = random.within(1, most);
    let mut counts: Vec<u8> = (0..letters).map(|_| random.below(5) as u8).collect();
    if random.percent(90) {
        counts[random.below(letters)] = 0;
    }
    counts
}

/// A table that grows row by row, with what its next rows may stand on.
struct Growing<'a> {
    random: &'a mut Random,
    lent: Lent,
    records: Vec<u32>,
    contexts: Vec<u32>,
    nodes: HashSet<(u32, [u32; 4])>,
}

impl Growing<'_> {
    /// Adds one row, unless what it drew is no row: no child to take, or a twin.
    fn try_row(&mut self) {
        let symbol = self.random.below(self.lent.counts.len());
        let count = self.lent.counts[symbol] as usize;
        let holed = count > 0 && (self.records.is_empty() || self.random.percent(30));
        let hole_place = holed.then(|| self.random.below(count));
        let mut places = [0; 4];
        for (place, child) in places.iter_mut().enumerate().take(count) {
            let from = if Some(place) == hole_place {
                &self.contexts
            } else {
                &self.records
            };
            if from.is_empty() {
                return;
            }
            *child = draw(self.random, from);
        }
        if self.nodes.insert((symbol as u32, places)) {
            let answer = if holed {
                0
            } else {
                self.random.below(3) as u32
            };
            let row = self.lent.push(symbol as u32, answer, places);
            let kind = if holed {
                &mut self.contexts
            } else {
                &mut self.records
            };
            kind.push(row);
        }
    }
}

/// A row of a list: often one of the last, so that terms get deep.
fn draw(random: &mut Random, from: &[u32]) -> u32 {
    if random.percent(50) {
        let last = from.len().min(4);
        return from[from.len() - 1 - random.below(last)];
    }
    random.pick(from)
}

/// A table over an alphabet with at most so many used rows; small alphabets may allow only fewer.
pub fn over(random: &mut Random, counts: &[u8], rows: usize) -> Lent {
    let mut growing = Growing {
        random,
        lent: Lent::with_hole(counts),
        records: Vec::new(),
        contexts: vec![0],
        nodes: HashSet::new(),
    };
    for _ in 0..4 * rows {
        if growing.lent.used as usize == rows {
            break;
        }
        growing.try_row();
    }
    growing.lent
}

/// A table with at most so many used rows, and up to `spare` rows of anything behind them.
pub fn table(random: &mut Random, rows: usize, spare: usize) -> Lent {
    let counts = alphabet(random);
    let rows = random.within(1, rows);
    let mut lent = over(random, &counts, rows);
    let more = ROW_WORDS * random.within(0, spare);
    lent.words.extend((0..more).map(|_| random.bits() as u32));
    lent
}

/// A table with exactly so many used rows, over an alphabet that allows them.
pub fn large(random: &mut Random, rows: usize) -> Lent {
    let lent = over(random, &[0, 0, 1, 2, 3, 4, 1, 2], rows);
    assert_eq!(lent.used as usize, rows);
    lent
}

/// A chain of contexts over the hole, and then a leaf.
pub fn chain(length: usize) -> Lent {
    let mut lent = Lent::with_hole(&[0, 1]);
    let mut row = 0;
    for _ in 0..length {
        row = lent.push(1, 0, [row, 0, 0, 0]);
    }
    lent.push(0, 2, [0; 4]);
    lent
}
