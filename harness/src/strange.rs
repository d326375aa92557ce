//! Sound tables, and nearly sound ones, that no run leaves: rows that nobody asked about, records in
//! hand that unfold without end, rows in another order.

use oracle::limits::ROW_WORDS;
use oracle::testing::compare::Tables;
use oracle::testing::random::Random;
use std::collections::HashMap;

/// Tables with room behind their rows, and the row of every node.
pub struct Strange {
    pub tables: Tables,
    rows: HashMap<Vec<u32>, u16>,
    pub records: Vec<u16>,
}

impl Strange {
    /// Sound tables, with so many rows lent.
    pub fn of(mut tables: Tables, rows: usize) -> Strange {
        tables.words.resize(rows * ROW_WORDS, 7);
        let mut strange = Strange {
            tables,
            rows: HashMap::new(),
            records: Vec::new(),
        };
        let mut holed = vec![true];
        for row in 1..strange.tables.lists.used {
            let node = strange.node(row);
            let count = strange.tables.lists.counts[node[0] as usize] as usize;
            let children = &node[1..][..count];
            holed.push(children.iter().any(|&child| holed[child as usize]));
            if !holed[row as usize] {
                strange.records.push(row);
            }
            strange.rows.insert(node, row);
        }
        strange
    }

    /// Symbol and child places of a row.
    fn node(&self, row: u16) -> Vec<u32> {
        let words = &self.tables.words[row as usize * ROW_WORDS..][..ROW_WORDS];
        [&words[..1], &words[2..]].concat()
    }

    pub fn answer(&mut self, row: u16) -> &mut u32 {
        &mut self.tables.words[row as usize * ROW_WORDS + 1]
    }

    pub fn room(&self) -> usize {
        self.tables.words.len() / ROW_WORDS - self.tables.lists.used as usize
    }

    /// A record over stored ones: found, or added with an answer.
    pub fn record(&mut self, symbol: usize, children: &[u16], answer: u32) -> u16 {
        let mut node = vec![symbol as u32, 0, 0, 0, 0];
        for (place, &child) in children.iter().enumerate() {
            node[1 + place] = child as u32;
        }
        if let Some(&row) = self.rows.get(&node) {
            return row;
        }
        let row = self.tables.lists.used;
        let words = &mut self.tables.words[row as usize * ROW_WORDS..][..ROW_WORDS];
        words[0] = node[0];
        words[1] = answer;
        words[2..].copy_from_slice(&node[1..]);
        self.tables.lists.used += 1;
        self.rows.insert(node, row);
        self.records.push(row);
        row
    }

    /// Adds up to so many records over the last few, answered or not: they unfold ever larger.
    pub fn heap(&mut self, random: &mut Random, rows: usize) {
        let letters = self.tables.lists.letters as usize;
        for _ in 0..rows.min(self.room()) {
            let symbol = random.below(letters);
            let count = self.tables.lists.counts[symbol] as usize;
            if self.records.is_empty() && count > 0 {
                continue;
            }
            let last = self.records.len().min(*random.pick(&[1, 2, 6]));
            let children: Vec<u16> = (0..count)
                .map(|_| self.records[self.records.len() - 1 - random.below(last)])
                .collect();
            let answer = random.below(3) as u32;
            self.record(symbol, &children, answer);
        }
    }

    /// Takes an answered record in hand and opens a question that has nothing to do with it.
    pub fn take_in_hand(&mut self, random: &mut Random) {
        let (Some(&last), Some(&asked)) = (self.records.last(), self.unknown(random)) else {
            return;
        };
        let any = *random.pick(&self.records);
        self.tables.lists.hand = if random.percent(70) { last } else { any };
        self.tables.lists.asked = asked;
    }

    /// A record without an answer.
    fn unknown(&self, random: &mut Random) -> Option<&u16> {
        let words = &self.tables.words;
        let unknown = |row: &&u16| words[**row as usize * ROW_WORDS + 1] == 0;
        let unknown: Vec<&u16> = self.records.iter().filter(unknown).collect();
        (!unknown.is_empty()).then(|| unknown[random.below(unknown.len())])
    }
}

/// The same tables with the used rows in a random order that keeps children first. Each row is ready once.
pub fn shuffled(tables: &Tables, random: &mut Random) -> Tables {
    let used = tables.lists.used as usize;
    let row = |row: usize| &tables.words[row * ROW_WORDS..][..ROW_WORDS];
    let count = |at: usize| tables.lists.counts[row(at)[0] as usize] as usize;
    let mut waits = vec![0; used];
    let mut above = vec![Vec::new(); used];
    for (at, waits) in waits.iter_mut().enumerate().skip(1) {
        *waits = count(at);
        for &child in &row(at)[2..][..count(at)] {
            above[child as usize].push(at);
        }
    }
    let mut order = vec![0];
    let mut ready: Vec<usize> = (1..used).filter(|&at| waits[at] == 0).collect();
    let mut release = |at: usize, ready: &mut Vec<usize>| {
        for &parent in &above[at] {
            waits[parent] -= 1;
            if waits[parent] == 0 {
                ready.push(parent);
            }
        }
    };
    release(0, &mut ready);
    while !ready.is_empty() {
        let at = ready.swap_remove(random.below(ready.len()));
        order.push(at);
        release(at, &mut ready);
    }
    renumbered(tables, &order)
}

/// The same tables with the used rows in the given order, right or wrong.
pub fn renumbered(tables: &Tables, order: &[usize]) -> Tables {
    let mut number = vec![0; order.len()];
    let places = order.iter().enumerate();
    places.for_each(|(new, &old)| number[old] = new as u16);
    let mut found = tables.clone();
    for (new, &old) in order.iter().enumerate().skip(1) {
        let words = &tables.words[old * ROW_WORDS..][..ROW_WORDS];
        let count = tables.lists.counts[words[0] as usize] as usize;
        let moved = &mut found.words[new * ROW_WORDS..][..ROW_WORDS];
        moved.copy_from_slice(words);
        for place in &mut moved[2..][..count] {
            *place = number[*place as usize] as u32;
        }
    }
    let lists = &mut found.lists;
    let renumber = |rows: &mut [u16]| rows.iter_mut().for_each(|row| *row = number[*row as usize]);
    renumber(&mut lists.s[..lists.states as usize]);
    renumber(&mut lists.t[..lists.rules as usize]);
    renumber(&mut lists.c[..lists.contexts as usize]);
    renumber(std::slice::from_mut(&mut lists.hand));
    renumber(std::slice::from_mut(&mut lists.asked));
    found
}
