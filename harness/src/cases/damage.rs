//! Sound tables with one field damaged, every field in turn, and every call on them.

use super::compare::Met;
use crate::strange::Strange;
use crate::teacher::Taught;
use oracle::limits::ROW_WORDS;
use oracle::testing::compare::{Call, Tables};
use oracle::testing::damage::damage;
use oracle::testing::random::Random;

/// Tables to damage, the calls to make on them, and what they met.
struct Damaged<'a> {
    tables: Tables,
    calls: Vec<Call>,
    met: &'a mut Met,
}

impl Damaged<'_> {
    fn over(tables: Tables, met: &mut Met) -> Damaged<'_> {
        let leaf = tables.lists.counts.iter().position(|&count| count == 0);
        let inner = tables.lists.counts.iter().position(|&count| count == 1);
        let (leaf, inner) = (leaf.unwrap_or(0) as u8, inner.unwrap_or(0) as u8);
        let offer = |symbols: &[u8], mark| Call::Offer(symbols.to_vec(), mark);
        let calls = vec![
            Call::Accept,
            Call::Answer(0),
            Call::Answer(1),
            offer(&[leaf], 1),
            offer(&[leaf, inner, inner], 0),
            offer(&[leaf, inner, inner, inner], 1),
        ];
        Damaged { tables, calls, met }
    }

    fn make_calls(&mut self) {
        // The phase refuses what it does not allow, and one such call is enough.
        let asking = self.tables.lists.asked != 0;
        for call in &self.calls {
            let answer = matches!(call, Call::Answer(_));
            if answer == asking || matches!(call, Call::Answer(0) | Call::Accept) {
                self.met.try_call(&self.tables, call);
            }
        }
        self.met.emit_and_judge(&self.tables);
    }

    /// Makes the calls with one field set to each of some values, and puts it back.
    fn each<T: Copy + PartialEq>(&mut self, values: &[T], field: impl Fn(&mut Tables) -> &mut T) {
        let old = *field(&mut self.tables);
        for &value in values {
            if value != old {
                *field(&mut self.tables) = value;
                self.make_calls();
            }
        }
        *field(&mut self.tables) = old;
    }

    fn every_word(&mut self) {
        let used = self.tables.lists.used as u32;
        let end = self.tables.words.len().min((used as usize + 2) * ROW_WORDS);
        for at in 0..end {
            let old = self.tables.words[at];
            let next = old.wrapping_add(1);
            let values = [0, 1, 2, next, old.wrapping_sub(1), used - 1, used, u32::MAX];
            self.each(&values, |tables| &mut tables.words[at]);
        }
    }

    fn every_entry(&mut self, end: usize, array: impl Fn(&mut Tables) -> &mut [u16]) {
        let used = self.tables.lists.used;
        let size = array(&mut self.tables).len();
        for at in 0..size.min(end + 3) {
            let old = array(&mut self.tables)[at];
            let values = [0, 1, 2, old.wrapping_add(1), used - 1, used, 65_535];
            self.each(&values, |tables| &mut array(tables)[at]);
        }
    }

    fn every_list(&mut self) {
        let lists = &self.tables.lists;
        let (states, rules) = (lists.states as usize, lists.rules as usize);
        let contexts = lists.contexts as usize;
        self.every_entry(states, |tables| &mut tables.lists.s);
        self.every_entry(rules, |tables| &mut tables.lists.t);
        self.every_entry(contexts, |tables| &mut tables.lists.c);
        for at in 0..self.tables.lists.letters as usize + 1 {
            self.each(&[0, 1, 2, 3, 4, 5, 255], |tables| {
                &mut tables.lists.counts[at]
            });
        }
    }

    fn every_number(&mut self) {
        let bytes: Vec<u8> = (0..40).chain([63, 64, 65, 128, 254, 255]).collect();
        self.each(&bytes, |tables| &mut tables.lists.letters);
        self.each(&bytes, |tables| &mut tables.lists.accepted);
        let edges = [255, 256, 257, 288, 289, 290, 16_383, 16_384, 16_385, 65_535];
        let states: Vec<u16> = (0..40).chain(edges).collect();
        self.each(&states, |tables| &mut tables.lists.states);
        let used = self.tables.lists.used;
        let numbers: Vec<u16> = (0..used + 4).chain(edges).collect();
        self.each(&numbers, |tables| &mut tables.lists.used);
        self.each(&numbers, |tables| &mut tables.lists.rules);
        self.each(&numbers, |tables| &mut tables.lists.contexts);
        self.each(&numbers, |tables| &mut tables.lists.hand);
        self.each(&numbers, |tables| &mut tables.lists.asked);
    }

    fn every_field(mut self) {
        self.make_calls();
        self.every_word();
        self.every_list();
        self.every_number();
    }
}

/// A table of a fresh run, after some calls: its sort, and what is lent.
pub fn after_some_calls(random: &mut Random) -> (usize, Tables) {
    let mut run = Taught::random(random);
    for _ in 0..random.within(1, 24) {
        run.step(random);
    }
    let mut tables = run.tables;
    let lists = &tables.lists;
    let sort = match (lists.asked, lists.hand, lists.accepted) {
        (0, _, 0) => 0,
        (0, _, _) => 1,
        (_, 0, _) => 2,
        _ => 3,
    };
    let rows = lists.used as usize + random.below(12);
    tables.words.resize(rows * ROW_WORDS, 8);
    (sort, tables)
}

/// A proposal with a record in hand and an open question besides, if that is sound.
pub fn in_hand(random: &mut Random) -> Option<Tables> {
    let tables = Taught::random(random).proposing(random, 12)?;
    let rows = tables.lists.used as usize + 16;
    let mut strange = Strange::of(tables, rows);
    strange.heap(random, 12);
    strange.take_in_hand(random);
    let tables = strange.tables;
    let sound = oracle::look(&tables.words, &tables.lists).number == 0;
    (sound && tables.lists.hand != 0).then_some(tables)
}

/// The calls with every field of the tables damaged in turn.
pub fn every_field(tables: Tables, met: &mut Met) {
    Damaged::over(tables, met).every_field();
}

/// The calls on the tables with so many fields damaged at once.
pub fn several_fields(mut tables: Tables, fields: usize, random: &mut Random, met: &mut Met) {
    (0..fields).for_each(|_| damage(&mut tables, random));
    Damaged::over(tables, met).make_calls();
}

/// A small table of a fresh run, every field damaged in turn.
pub fn small_run(random: &mut Random, met: &mut Met) {
    let (_, tables) = after_some_calls(random);
    if tables.lists.used < 60 {
        every_field(tables, met);
    }
}

/// The same with a record in hand that no run took.
pub fn small_hand(random: &mut Random, met: &mut Met) {
    let found = (0..20).find_map(|_| in_hand(random));
    if let Some(tables) = found.filter(|tables| tables.lists.used < 40) {
        every_field(tables, met);
    }
}

/// A table of a fresh run with up to four fields damaged.
pub fn damaged_run(random: &mut Random, met: &mut Met) {
    let (_, tables) = after_some_calls(random);
    let fields = random.within(1, 4);
    several_fields(tables, fields, random, met);
}
