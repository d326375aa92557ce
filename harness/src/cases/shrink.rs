//! Smaller inputs for a difference. A call on a full table takes milliseconds, and there are thousands of rows to take away.

use oracle::limits::ROW_WORDS;
use oracle::testing::compare::{Call, Tables};
use oracle::testing::shrink::{changed, less_listed};

/// Tables with one part less; of the rows the last ones, since each of thousands would be too many.
fn smaller_tables(tables: &Tables) -> Vec<Tables> {
    let halved = changed(tables, |it| {
        let rows = (it.words.len() / ROW_WORDS + it.lists.used as usize) / 2;
        it.words.truncate(rows * ROW_WORDS);
    });
    let shorter = changed(tables, |it| {
        it.words.truncate(it.words.len().saturating_sub(ROW_WORDS));
    });
    let parts = less_listed(tables).into_iter();
    parts.chain(halved).chain(shorter).collect()
}

/// A record with one of its first symbols less.
fn fewer(symbols: &[u8]) -> impl Iterator<Item = Vec<u8>> + '_ {
    (0..symbols.len().min(40)).map(|place| [&symbols[..place], &symbols[place + 1..]].concat())
}

/// Tables and what is given with them, with one part less.
fn smaller<Given: Clone>(
    tables: &Tables,
    given: &Given,
    fewer: impl Iterator<Item = Given>,
) -> Vec<(Tables, Given)> {
    let fewer = fewer.map(|given| (tables.clone(), given));
    let tables = smaller_tables(tables).into_iter();
    tables.map(|it| (it, given.clone())).chain(fewer).collect()
}

pub fn smaller_record((tables, symbols): &(Tables, Vec<u8>)) -> Vec<(Tables, Vec<u8>)> {
    smaller(tables, symbols, fewer(symbols))
}

pub fn smaller_call((tables, call): &(Tables, Call)) -> Vec<(Tables, Call)> {
    match call {
        Call::Offer(symbols, mark) => {
            let fewer = fewer(symbols).map(|symbols| Call::Offer(symbols, *mark));
            smaller(tables, call, fewer)
        }
        _ => smaller(tables, call, std::iter::empty()),
    }
}
