//! One damaged field at a time: values at and past every end.

use super::compare::Tables;
use super::random::Random;
use crate::limits::ROW_WORDS;

/// Numbers that lie at some limit.
const EDGES: [u32; 22] = [
    0,
    1,
    2,
    3,
    4,
    5,
    6,
    31,
    32,
    33,
    63,
    64,
    65,
    254,
    255,
    256,
    257,
    288,
    289,
    290,
    65_535,
    u32::MAX,
];

fn value(random: &mut Random, used: u32) -> u32 {
    match random.below(4) {
        0 => used.wrapping_add(random.below(3) as u32).wrapping_sub(1),
        1 => random.below(used.max(1) as usize) as u32,
        2 => random.bits() as u32,
        _ => *random.pick(&EDGES),
    }
}

/// Sets one field of the lists or one word of the table, or cuts the table.
pub fn damage(tables: &mut Tables, random: &mut Random) {
    let used = tables.lists.used as u32;
    let number = value(random, used);
    let lists = &mut tables.lists;
    let place = |random: &mut Random, end: usize, size: usize| random.below((end + 1).min(size));
    match random.below(16) {
        0 => lists.letters = number as u8,
        1 => lists.counts[place(random, lists.letters as usize, 64)] = number as u8,
        2 => lists.used = number as u16,
        3 => lists.states = number as u16,
        4 => lists.s[place(random, lists.states as usize, 32)] = number as u16,
        5 => lists.rules = number as u16,
        6 => lists.t[place(random, lists.rules as usize, 256)] = number as u16,
        7 => lists.contexts = number as u16,
        8 => lists.c[place(random, lists.contexts as usize, 289)] = number as u16,
        9 => lists.hand = number as u16,
        10 => lists.asked = number as u16,
        11 => lists.accepted = number as u8,
        12 => tables
            .words
            .truncate(number as usize % (tables.words.len() + 1)),
        _ => {
            let rows = (tables.words.len() / ROW_WORDS).min(used as usize + 1);
            let word = random.below((rows * ROW_WORDS).max(1));
            if let Some(word) = tables.words.get_mut(word) {
                *word = number;
            }
        }
    }
}

/// Whether the rows unfold to few enough nodes for the naive learner.
pub fn unfolds_small(tables: &Tables) -> bool {
    let mut sizes: Vec<u64> = Vec::new();
    let mut total: u64 = 0;
    for row in tables.words.chunks_exact(ROW_WORDS) {
        if sizes.len() == tables.lists.used as usize {
            break;
        }
        let below = row[2..]
            .iter()
            .filter_map(|&child| sizes.get(child as usize));
        let size = 1 + below.sum::<u64>();
        total = total.saturating_add(size);
        if total > 4_000 {
            return false;
        }
        sizes.push(size);
    }
    true
}
