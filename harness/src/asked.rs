//! Records to ask a verdict on: any and damaged ones, stored ones, and such over stored ones.

use crate::listing;
use crate::teaching::written;
use oracle::limits::{RECORD_MAX, ROW_WORDS};
use oracle::testing::compare::Tables;
use oracle::testing::random::Random;
use oracle::testing::target::Target;

/// A generator that is seeded with what is lent, so that a case that is run again asks the same.
pub fn random_of(tables: &Tables) -> Random {
    let lists = &tables.lists;
    let lengths = [lists.used, lists.states, lists.rules, lists.contexts];
    let rows = [lists.hand, lists.asked, lists.accepted.into()];
    let numbers = lengths.into_iter().chain(rows).map(u32::from);
    let words = tables.words.iter().copied().take(100 * ROW_WORDS);
    let mix = |seed: u64, number: u32| (seed ^ number as u64).wrapping_mul(0x100_0000_01B3);
    Random::new(numbers.chain(words).fold(tables.words.len() as u64, mix))
}

/// The child counts of the alphabet, as far as there are any.
fn alphabet(tables: &Tables) -> &[u8] {
    let lists = &tables.lists;
    lists.counts.get(..lists.letters as usize).unwrap_or(&[])
}

/// Many symbols, at and past the most there may be: a chain if there is a link, otherwise leaves. One of them may be another
/// leaf or link.
fn long(counts: &[u8], random: &mut Random) -> Vec<u8> {
    let with = |count: u8| (0..counts.len()).filter(move |&symbol| counts[symbol] == count);
    let (leaf, link) = (with(0).next().unwrap_or(0), with(1).next());
    let length = *random.pick(&[RECORD_MAX - 1, RECORD_MAX, RECORD_MAX + 1, 3_000]);
    let mut symbols = vec![link.unwrap_or(leaf) as u8; length];
    symbols[0] = leaf as u8;
    let place = random.below(length);
    let others: Vec<usize> = with((link.is_some() && place > 0) as u8).collect();
    if !others.is_empty() {
        symbols[place] = *random.pick(&others) as u8;
    }
    symbols
}

/// Any record over the alphabet, or symbols that are none. The tables may hold anything.
pub fn any(tables: &Tables, random: &mut Random) -> Vec<u8> {
    let counts = alphabet(tables);
    if random.percent(3) {
        return long(counts, random);
    }
    let mut symbols = match counts.contains(&0) {
        true => Target::random_record(counts, random, 20),
        false => vec![random.below(66) as u8; random.below(3)],
    };
    if random.percent(25) {
        let random = &mut crate::random::Random::new(random.bits());
        listing::damage(random, &mut symbols);
    }
    symbols
}

/// A stored record of sound tables: one with an answer, or a transition.
fn stored(tables: &Tables, random: &mut Random) -> Option<Vec<u8>> {
    let lists = &tables.lists;
    let row = random.below(lists.used.into());
    let known = tables.words[row * ROW_WORDS + 1] != 0;
    match lists.transitions() {
        _ if known => written(tables, row as u16),
        [] => None,
        transitions => written(tables, *random.pick(transitions)),
    }
}

/// Up to four symbols over a stored record of sound tables, with stored ones beside the path.
fn over(tables: &Tables, random: &mut Random) -> Option<Vec<u8>> {
    let mut symbols = stored(tables, random)?;
    for _ in 0..random.within(1, 4) {
        let root = random.below(tables.lists.letters.into());
        let count = tables.lists.counts[root] as usize;
        let mut children: Vec<Vec<u8>> = (1..count)
            .map(|_| stored(tables, random))
            .collect::<Option<_>>()?;
        if count > 0 {
            children.insert(random.below(count), symbols);
        }
        children.push(vec![root as u8]);
        symbols = children.concat();
    }
    Some(symbols)
}

/// A stored record of sound tables, or symbols over such; none if nothing is stored that is small enough.
pub fn stored_or_over(tables: &Tables, random: &mut Random) -> Option<Vec<u8>> {
    match random.percent(40) {
        true => stored(tables, random),
        false => over(tables, random),
    }
}
