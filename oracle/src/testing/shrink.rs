//! A smaller input with the same difference, for the one that is printed.

use super::compare::Tables;
use crate::limits::ROW_WORDS;
use std::time::{Duration, Instant};

/// How long a smaller input is looked for.
const SHRINKING: Duration = Duration::from_secs(10);

/// Takes parts away as long as there is still a difference, and time.
pub fn smallest<Input>(
    mut input: Input,
    smaller: impl Fn(&Input) -> Vec<Input>,
    differ: impl Fn(&Input) -> bool,
) -> Input {
    let begin = Instant::now();
    let differs = |input: &Input| begin.elapsed() < SHRINKING && differ(input);
    while let Some(found) = smaller(&input).into_iter().find(differs) {
        input = found;
    }
    input
}

/// Tables or a listed record with one part less.
pub fn smaller(tables: &Tables, symbols: &[u8]) -> Vec<(Tables, Vec<u8>)> {
    let parts = smaller_tables(tables).into_iter();
    let mut found: Vec<_> = parts.map(|part| (part, symbols.to_vec())).collect();
    for place in 0..symbols.len() {
        let fewer = [&symbols[..place], &symbols[place + 1..]].concat();
        found.push((tables.clone(), fewer));
    }
    found
}

/// Tables with one part less; of the rows each may lose its answer.
fn smaller_tables(tables: &Tables) -> Vec<Tables> {
    let rows = 1..tables.words.len() / ROW_WORDS;
    let unanswered = |row| changed(tables, |it| it.words[row * ROW_WORDS + 1] = 0);
    let parts = less_listed(tables).into_iter();
    parts.chain(rows.filter_map(unanswered)).collect()
}

/// Tables without the rows that are not used, or with less in their lists.
pub fn less_listed(tables: &Tables) -> Vec<Tables> {
    let changes: [fn(&mut Tables); 8] = [
        |it| it.words.truncate(it.lists.used as usize * ROW_WORDS),
        |it| it.lists.used = it.lists.used.saturating_sub(1),
        |it| it.lists.contexts = it.lists.contexts.saturating_sub(1),
        |it| it.lists.rules = it.lists.rules.saturating_sub(1),
        |it| it.lists.states = it.lists.states.saturating_sub(1),
        |it| it.lists.letters = it.lists.letters.saturating_sub(1),
        |it| it.lists.hand = 0,
        |it| it.lists.asked = 0,
    ];
    let found = changes.iter().filter_map(|change| changed(tables, change));
    found.collect()
}

/// What a change makes of tables, where it makes others.
pub fn changed(tables: &Tables, change: impl Fn(&mut Tables)) -> Option<Tables> {
    let mut smaller = tables.clone();
    change(&mut smaller);
    (smaller != *tables).then_some(smaller)
}
