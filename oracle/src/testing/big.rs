//! Large sound tables, for tests of speed and for benchmarks.

use super::compare::Tables;
use super::random::Random;
use crate::lent::{Lists, Row};
use crate::limits::{HOLE_SYMBOL, ROWS_MAX, ROW_WORDS, RULES_MAX, STATES_MAX};

const UNKNOWN: u32 = 0;
const NO: u32 = 1;
const YES: u32 = 2;

/// Rows appended one by one; the caller keeps them distinct.
struct Builder {
    words: Vec<u32>,
    lists: Lists,
}

impl Builder {
    fn new(counts: &[u8]) -> Builder {
        let mut lists = Lists::zeroed();
        lists.letters = counts.len() as u8;
        lists.counts[..counts.len()].copy_from_slice(counts);
        lists.contexts = 1;
        Builder {
            words: vec![HOLE_SYMBOL, 0, 0, 0, 0, 0],
            lists,
        }
    }

    fn row(&mut self, symbol: u32, answer: u32, children: &[Row]) -> Row {
        let row = self.words.len() / ROW_WORDS;
        let mut words = [symbol, answer, 0, 0, 0, 0];
        for (place, &child) in children.iter().enumerate() {
            words[2 + place] = child as u32;
        }
        self.words.extend(words);
        row as Row
    }

    fn state(&mut self, row: Row) {
        self.lists.s[self.lists.states as usize] = row;
        self.lists.states += 1;
    }

    fn transition(&mut self, row: Row) {
        self.lists.t[self.lists.rules as usize] = row;
        self.lists.rules += 1;
    }

    fn context(&mut self, row: Row) {
        self.lists.c[self.lists.contexts as usize] = row;
        self.lists.contexts += 1;
    }

    /// The tables, with so many rows lent.
    fn lend(mut self, rows: usize) -> Tables {
        self.lists.used = (self.words.len() / ROW_WORDS) as u16;
        self.words.resize(rows * ROW_WORDS, 0);
        Tables {
            words: self.words,
            lists: self.lists,
        }
    }
}

/// Symbols of the tables below: a leaf, a link, and seven more links.
const LEAF: u32 = 0;
const LINK: u32 = 1;
const OTHERS: u32 = 7;
const LINKED: [u8; 2 + OTHERS as usize] = [0, 1, 1, 1, 1, 1, 1, 1, 1];

/// All there is room for: 16,384 rows with so many of them free, 32 states, 256
/// transitions, 288 contexts on a spine of the given depth, and a question open. (With
/// so many contexts and transitions some answers are missing in any table, as all of
/// them would need more rows.)
pub fn full(depth: usize, free: usize) -> Tables {
    let mut random = Random::new(1);
    let mut builder = Builder::new(&LINKED);
    let mut context = 0;
    let contexts: Vec<Row> = (0..depth)
        .map(|_| {
            context = builder.row(LINK, UNKNOWN, &[context]);
            context
        })
        .collect();
    let step = depth / 287;
    let spread = contexts.iter().rev().step_by(step.max(1)).take(287);
    spread.for_each(|&row| builder.context(row));
    let mut chain = vec![builder.row(LEAF, YES, &[])];
    for place in 1..=STATES_MAX {
        chain.push(builder.row(LINK, NO + (place == STATES_MAX) as u32, &[chain[place - 1]]));
    }
    chain[..STATES_MAX]
        .iter()
        .for_each(|&row| builder.state(row));
    chain.iter().for_each(|&row| builder.transition(row));
    for place in 0..RULES_MAX - chain.len() {
        let child = chain[place % STATES_MAX];
        let row = builder.row(2 + (place / STATES_MAX) as u32, YES, &[child]);
        builder.transition(row);
    }
    while builder.words.len() < (ROWS_MAX - free - 1) * ROW_WORDS {
        let code = 1 + random.below(2) as u32;
        chain.push(builder.row(LINK, code, &[chain[chain.len() - 1]]));
    }
    builder.lists.asked = builder.row(LINK, UNKNOWN, &[chain[chain.len() - 1]]);
    builder.lend(ROWS_MAX)
}

/// A complete table that proposes: 32 states counted modulo 32, 256 transitions, and so
/// many contexts besides the hole; the rest of 16,384 rows is free.
pub fn proposing(contexts: usize) -> Tables {
    let mut builder = Builder::new(&LINKED);
    let code = |count: usize| {
        if count.is_multiple_of(STATES_MAX) {
            YES
        } else {
            NO
        }
    };
    let mut context = 0;
    for _ in 0..contexts {
        context = builder.row(LINK, UNKNOWN, &[context]);
        builder.context(context);
    }
    let mut chain = vec![builder.row(LEAF, YES, &[])];
    for count in 1..=contexts + STATES_MAX {
        chain.push(builder.row(LINK, code(count), &[chain[count - 1]]));
    }
    chain[..STATES_MAX]
        .iter()
        .for_each(|&row| builder.state(row));
    chain[..=STATES_MAX]
        .iter()
        .for_each(|&row| builder.transition(row));
    for place in 0..RULES_MAX - STATES_MAX - 1 {
        let (symbol, state) = (place / STATES_MAX, place % STATES_MAX);
        let first = symbol + 3 * state;
        let mut row = builder.row(2 + symbol as u32, code(first), &[chain[state]]);
        builder.transition(row);
        for count in first + 1..=first + contexts {
            row = builder.row(LINK, code(count), &[row]);
        }
    }
    builder.lend(ROWS_MAX)
}

/// A record in hand whose exchanged records are all stored and known: a chain of so
/// many links, exchanged link by link once the open question is answered no.
pub fn exchanges(links: usize) -> Tables {
    let mut builder = Builder::new(&[1, 0]);
    let leaf = builder.row(1, YES, &[]);
    let mut row = builder.row(0, YES, &[leaf]);
    builder.state(leaf);
    builder.transition(leaf);
    builder.transition(row);
    for _ in 1..links {
        row = builder.row(0, NO, &[row]);
    }
    builder.lists.hand = row;
    builder.lists.asked = builder.row(0, UNKNOWN, &[row]);
    builder.lend(ROWS_MAX)
}

/// A record in hand that unfolds to 2 to the `levels` leaves, each outside S, with an
/// open question that has nothing to do with it.
pub fn doubling(levels: usize) -> Tables {
    let mut builder = Builder::new(&[2, 0, 0]);
    let representative = builder.row(1, YES, &[]);
    let leaf = builder.row(2, YES, &[]);
    let pair = builder.row(0, YES, &[representative, representative]);
    builder.state(representative);
    for row in [representative, leaf, pair] {
        builder.transition(row);
    }
    let mut row = leaf;
    for level in 1..=levels {
        row = builder.row(0, if level == levels { NO } else { UNKNOWN }, &[row, row]);
    }
    builder.lists.hand = row;
    builder.lists.asked = builder.row(0, UNKNOWN, &[pair, pair]);
    builder.lend(ROWS_MAX)
}

/// Two contexts, one of them so many rows deep, and no answer missing.
pub fn deep_context(depth: usize) -> Tables {
    let mut builder = Builder::new(&[1, 0]);
    let mut chain = vec![builder.row(1, YES, &[])];
    for _ in 0..=depth {
        chain.push(builder.row(0, YES, &[chain[chain.len() - 1]]));
    }
    builder.state(chain[0]);
    builder.transition(chain[0]);
    builder.transition(chain[1]);
    let mut context = 0;
    for _ in 0..depth {
        context = builder.row(0, UNKNOWN, &[context]);
    }
    builder.context(context);
    builder.lend(ROWS_MAX)
}

/// The most that T4 allows: a full table with one context more, 289, while answers are missing. The
/// spine is of 574 rows or more, so that it has rows between members of C.
pub fn widest(depth: usize, free: usize) -> Tables {
    let mut tables = full(depth, free);
    let lists = &mut tables.lists;
    lists.c[lists.contexts as usize] = lists.c[1] - 1;
    lists.contexts += 1;
    tables
}

/// The deepest spine below: with it no row is free.
pub const SPINE_MAX: usize = (ROWS_MAX - STATES_MAX - 2) / 2;

/// A complete table that proposes, on a spine of so many rows, 64 or more: 32 states counted
/// modulo 32, 33 transitions, 65 contexts, and every row of the spine stored as it is filled.
pub fn spine(depth: usize) -> Tables {
    let mut builder = Builder::new(&LINKED[..2]);
    let mut context = 0;
    let contexts: Vec<Row> = (0..depth)
        .map(|_| {
            context = builder.row(LINK, UNKNOWN, &[context]);
            context
        })
        .collect();
    // An odd step, so that every count modulo 32 has a context.
    let step = (depth / (2 * STATES_MAX)) | 1;
    let spread = contexts.iter().rev().step_by(step).take(2 * STATES_MAX);
    spread.for_each(|&row| builder.context(row));
    let mut chain = vec![builder.row(LEAF, YES, &[])];
    for count in 1..=depth + STATES_MAX {
        let code = NO + count.is_multiple_of(STATES_MAX) as u32;
        chain.push(builder.row(LINK, code, &[chain[count - 1]]));
    }
    let states = chain[..STATES_MAX].iter();
    states.for_each(|&row| builder.state(row));
    let transitions = chain[..=STATES_MAX].iter();
    transitions.for_each(|&row| builder.transition(row));
    builder.lend(ROWS_MAX)
}

/// Parity of the second leaf, which links turn round, by 256 transitions and two contexts: 512 rows
/// of a complete table. Row 1 is the context, the others are records.
fn parity() -> Builder {
    let mut counts = vec![0, 0, 1, 2];
    counts.resize(4 + 31, 3);
    let mut builder = Builder::new(&counts);
    let context = builder.row(2, UNKNOWN, &[0]);
    builder.context(context);
    let code = |odd: bool| if odd { NO } else { YES };
    let leaves = [0, 1].map(|symbol| builder.row(symbol, code(symbol == 1), &[]));
    leaves.iter().for_each(|&row| builder.state(row));
    let mut transitions = leaves.map(|row| (row, row != leaves[0])).to_vec();
    for (symbol, &count) in counts.iter().enumerate().skip(2) {
        for tuple in 0..1usize << count {
            let children = (0..count).map(|place| leaves[tuple >> place & 1]);
            let children: Vec<Row> = children.collect();
            // The link tells the parities apart: it adds one.
            let odd = (tuple.count_ones() % 2 == 1) != (symbol == 2);
            transitions.push((builder.row(symbol as u32, code(odd), &children), odd));
        }
    }
    for &(row, odd) in &transitions {
        builder.transition(row);
        if !leaves.contains(&row) {
            builder.row(2, code(!odd), &[row]);
        }
    }
    builder
}

/// A complete table that proposes, with contexts that are no members of C in every row left, each
/// above the one before.
pub fn beside() -> Tables {
    let mut builder = parity();
    let mut deeper = 1;
    while builder.words.len() < ROWS_MAX * ROW_WORDS {
        deeper = builder.row(2, UNKNOWN, &[deeper]);
    }
    builder.lend(ROWS_MAX)
}

/// The same with contexts whose hole is a child of their root.
pub fn beside_flat() -> Tables {
    let mut builder = parity();
    let records: Vec<Row> = (2..512).collect();
    let pairs = records
        .iter()
        .flat_map(|one| records.iter().map(move |other| [0, *one, *other]));
    for children in pairs.take(ROWS_MAX - 512) {
        builder.row(4, UNKNOWN, &children);
    }
    builder.lend(ROWS_MAX)
}

/// The first of these with the deepest context in C, of which nothing is stored as it is filled but its
/// first row; in the last row an open question.
pub fn unfilled() -> Tables {
    let mut tables = beside();
    let lists = &mut tables.lists;
    let last = lists.used - 1;
    lists.c[lists.contexts as usize] = last - 1;
    lists.contexts += 1;
    lists.asked = last;
    // The first row over the one context with a link comes after the last filled one.
    let over = [2, UNKNOWN, lists.c[1] as u32];
    let mut rows = tables.words.chunks_exact(ROW_WORDS);
    let deeper = rows.position(|row| row[..3] == over).unwrap_or(1) as u32;
    let asked = &mut tables.words[last as usize * ROW_WORDS..];
    asked.copy_from_slice(&[2, UNKNOWN, deeper - 1, 0, 0, 0]);
    tables
}
