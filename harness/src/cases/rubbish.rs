//! Words and lists that mean nothing, or little.

use super::compare::Met;
use super::elsewhere::every_call;
use oracle::testing::compare::{Call, Tables};
use oracle::testing::random::Random;
use oracle::Lists;

fn random_lists(random: &mut Random) -> Lists {
    let mut lists = Lists::zeroed();
    lists.letters = random.bits() as u8;
    lists.used = random.bits() as u16;
    lists.states = random.bits() as u16;
    lists.rules = random.bits() as u16;
    lists.contexts = random.bits() as u16;
    lists.hand = random.bits() as u16;
    lists.asked = random.bits() as u16;
    lists.accepted = random.bits() as u8;
    lists.counts.fill_with(|| random.bits() as u8);
    lists.s.fill_with(|| random.bits() as u16);
    lists.t.fill_with(|| random.bits() as u16);
    lists.c.fill_with(|| random.bits() as u16);
    lists
}

/// Any words and any lists.
pub fn random_tables(random: &mut Random) -> Tables {
    let size = random.below(60);
    let words = (0..size).map(|_| random.bits() as u32).collect();
    let lists = random_lists(random);
    Tables { words, lists }
}

/// Row 0 and rows of small numbers, places that are not needed mostly 0.
fn small_rows(random: &mut Random, rows: usize) -> Vec<u32> {
    let mut words = vec![255, 0, 0, 0, 0, 0];
    for row in 1..rows {
        let symbol = random.below(3);
        words.extend([symbol as u32, random.below(3) as u32]);
        for place in 0..4 {
            let needed = place < symbol || random.percent(2);
            words.push(if needed {
                random.below(row + 1) as u32
            } else {
                0
            });
        }
    }
    words
}

/// Small numbers after a right row 0: some of these tables are sound.
pub fn small_numbers(random: &mut Random) -> Tables {
    let rows = random.within(1, 6);
    let words = small_rows(random, rows);
    let mut lists = Lists::zeroed();
    lists.letters = 3;
    lists.counts[..3].copy_from_slice(&[0, 1, 2]);
    lists.used = random.within(1, rows) as u16;
    lists.contexts = random.within(1, 2) as u16;
    lists.states = random.below(2) as u16;
    lists.rules = random.below(3) as u16;
    lists.asked = random.below(3) as u16;
    lists.hand = random.below(6).saturating_sub(3) as u16;
    let entries = lists.s.iter_mut().chain(&mut lists.t).chain(&mut lists.c);
    entries.for_each(|entry| *entry = random.below(rows) as u16);
    lists.c[0] = 0;
    Tables { words, lists }
}

/// Every call on such tables, a start among them.
pub fn random_calls(random: &mut Random, met: &mut Met) {
    let tables = match random.below(4) {
        0 => random_tables(random),
        _ => small_numbers(random),
    };
    let letters = random.below(70);
    let counts = (0..letters).map(|_| random.below(6) as u8).collect();
    met.try_call(&tables, &Call::Start(counts));
    every_call(&tables, random, met);
}
