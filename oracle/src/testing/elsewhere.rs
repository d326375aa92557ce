//! Tables from elsewhere: sound or nearly so, but not left by a fresh run. Rows stand in
//! another order, answers are known that nobody asked, contexts are missing or too many,
//! the open question has nothing to do with the record in hand.

use super::compare::Tables;
use super::random::Random;
use super::target::Target;
use super::terms::Term;
use crate::lent::Lists;
use crate::limits::{CHILDREN_MAX, ROW_WORDS};

/// Tables with trees for rows, easy to change.
pub struct Loose {
    counts: Vec<u8>,
    rows: Vec<(Term, u8)>,
    s: Vec<Term>,
    t: Vec<Term>,
    c: Vec<Term>,
    hand: Option<Term>,
    asked: Option<Term>,
    accepted: u8,
}

impl Loose {
    /// The tables of a run, which are sound.
    pub fn of(tables: &Tables) -> Loose {
        let lists = &tables.lists;
        let mut rows = vec![(Term::Hole, 0)];
        for words in tables
            .words
            .chunks_exact(ROW_WORDS)
            .take(lists.used as usize)
            .skip(1)
        {
            let count = lists.counts[words[0] as usize] as usize;
            let children = words[2..][..count].iter();
            let children = children.map(|&child| rows[child as usize].0.clone());
            rows.push((
                Term::Node(words[0] as u8, children.collect()),
                words[1] as u8,
            ));
        }
        let term = |row: &u16| rows[*row as usize].0.clone();
        let some = |row: u16| (row != 0).then(|| term(&row));
        Loose {
            counts: lists.alphabet().to_vec(),
            s: lists.representatives().iter().map(term).collect(),
            t: lists.transitions().iter().map(term).collect(),
            c: lists.contexts().iter().map(term).collect(),
            hand: some(lists.hand),
            asked: some(lists.asked),
            accepted: lists.accepted,
            rows,
        }
    }

    /// Lists made up from a random automaton's answers, some of them unknown.
    pub fn made_up(target: &Target, random: &mut Random) -> Loose {
        let mut loose = Loose {
            counts: target.counts().to_vec(),
            rows: vec![(Term::Hole, 0)],
            s: Vec::new(),
            t: Vec::new(),
            c: vec![Term::Hole],
            hand: None,
            asked: None,
            accepted: 0,
        };
        for _ in 0..random.within(1, 6) {
            loose.add_transition(random);
        }
        for _ in 0..random.below(5) {
            loose.add_context(random);
        }
        let (stored, known) = (*random.pick(&[60, 100]), *random.pick(&[50, 90, 100]));
        for t in loose.t.clone() {
            for c in loose.c.clone() {
                if random.percent(stored) {
                    loose.store(&c.fill(&t), 0);
                }
            }
        }
        let accepts = |term: &Term| target.accepts(&symbols(term));
        for (term, answer) in loose.rows.iter_mut().filter(|(term, _)| term.holes() == 0) {
            if random.percent(known) {
                *answer = 1 + accepts(term) as u8;
            }
        }
        loose
    }

    fn store(&mut self, term: &Term, answer: u8) {
        for child in term.children() {
            self.store(child, 0);
        }
        match self.rows.iter_mut().find(|(row, _)| row == term) {
            Some((_, old)) if answer != 0 => *old = answer,
            Some(_) => {}
            None => self.rows.push((term.clone(), answer)),
        }
    }

    fn random_term(&self, random: &mut Random, depth: usize) -> Term {
        let fitting: Vec<usize> = (0..self.counts.len())
            .filter(|&symbol| depth > 0 || self.counts[symbol] == 0)
            .collect();
        let symbol = *random.pick(&fitting);
        let children = 0..self.counts[symbol];
        let children = children.map(|_| self.random_term(random, depth.saturating_sub(1)));
        Term::Node(symbol as u8, children.collect())
    }

    /// A symbol over representatives, in T and often in S.
    fn add_transition(&mut self, random: &mut Random) {
        let symbol = random.below(self.counts.len());
        let count = self.counts[symbol] as usize;
        if count > 0 && self.s.is_empty() {
            return;
        }
        let children = (0..count).map(|_| random.pick(&self.s).clone());
        let term = Term::Node(symbol as u8, children.collect());
        if self.t.contains(&term) {
            return;
        }
        self.store(&term, 0);
        let place = random.below(self.t.len() + 1);
        self.t.insert(place, term.clone());
        if random.percent(50) {
            let place = random.below(self.s.len() + 1);
            self.s.insert(place, term);
        }
    }

    /// A context over a member of C.
    pub fn add_context(&mut self, random: &mut Random) {
        let fitting: Vec<usize> = (0..self.counts.len())
            .filter(|&symbol| self.counts[symbol] > 0)
            .collect();
        if fitting.is_empty() {
            return;
        }
        let symbol = *random.pick(&fitting);
        let place = random.below(self.counts[symbol] as usize);
        let below = random.pick(&self.c).clone();
        let children = 0..self.counts[symbol] as usize;
        let children = children.map(|at| match at == place {
            true => below.clone(),
            false => self.random_term(random, 1),
        });
        let context = Term::Node(symbol as u8, children.collect());
        if !self.c.contains(&context) {
            self.store(&context, 0);
            self.c.push(context);
        }
    }

    /// The answers of a record at all contexts.
    fn row(&self, record: &Term) -> Vec<u8> {
        let answer = |term: Term| {
            let stored = self.rows.iter().find(|(row, _)| *row == term);
            stored.map_or(0, |row| row.1)
        };
        let contexts = self.c.iter();
        contexts
            .map(|context| answer(context.fill(record)))
            .collect()
    }

    /// Puts a record in hand, with some of the records that exchanging leads to stored
    /// and answered alike.
    pub fn take_in_hand(&mut self, random: &mut Random) {
        let mut term = self.random_term(random, 4);
        let answer = random.within(1, 2) as u8;
        self.store(&term, answer);
        self.hand = Some(term.clone());
        for _ in 0..random.below(20) {
            let mut occurrences = term.occurrences().into_iter();
            let outside = occurrences.find(|(found, _)| !self.s.contains(found));
            let (Some((found, around)), false) = (outside, self.s.is_empty()) else {
                break;
            };
            let row = self.row(&found);
            let alike = self.s.iter().find(|state| self.row(state) == row);
            term = around.fill(alike.unwrap_or(random.pick(&self.s)));
            let other = random.within(0, 2) as u8;
            let code = if random.percent(85) { answer } else { other };
            self.store(&term, code);
        }
    }

    /// Opens a question about some unknown record, stored before or not.
    pub fn open(&mut self, random: &mut Random) {
        let unknown = |(term, answer): &&(Term, u8)| *answer == 0 && term.holes() == 0;
        let stored: Vec<&(Term, u8)> = self.rows.iter().filter(unknown).collect();
        let term = match stored.is_empty() || random.percent(30) {
            true => self.random_term(random, 3),
            false => random.pick(&stored).0.clone(),
        };
        self.store(&term, 0);
        self.asked = Some(term);
    }

    /// Forgets an answer.
    pub fn forget(&mut self, random: &mut Random) {
        let place = random.below(self.rows.len());
        self.rows[place].1 = 0;
    }

    /// Stores a row whose children are contexts or records, so that it may have any
    /// number of holes, with an answer that a context must not have.
    fn store_holed(&mut self, random: &mut Random) {
        let symbol = random.below(self.counts.len());
        let children = 0..self.counts[symbol];
        let children = children.map(|_| match random.below(3) {
            0 => self.random_term(random, 1),
            _ => random.pick(&self.c).clone(),
        });
        let term = Term::Node(symbol as u8, children.collect());
        let answer = if random.percent(70) { 0 } else { 1 };
        self.store(&term, answer);
    }

    /// Makes one change that a sound table may or may not survive.
    pub fn change(&mut self, random: &mut Random) {
        match random.below(12) {
            0 => {
                let term = self.random_term(random, 3);
                self.store(&term, random.below(3) as u8);
            }
            1 => self.forget(random),
            2 => self.add_context(random),
            3 if self.c.len() > 1 => {
                self.c.remove(random.within(1, self.c.len() - 1));
            }
            4 => self.add_transition(random),
            5 | 6 => {
                self.take_in_hand(random);
                self.open(random);
            }
            7 => self.open(random),
            8 => self.asked = None,
            9 => self.store_holed(random),
            10 if self.t.len() > 1 => {
                self.t.remove(random.below(self.t.len()));
            }
            _ => self.accepted ^= 1,
        }
    }

    /// Answers what is missing at T and C, mostly as some representative does.
    pub fn complete(&mut self, random: &mut Random) {
        for t in self.t.clone() {
            for c in self.c.clone() {
                let filled = c.fill(&t);
                let known = self
                    .rows
                    .iter()
                    .any(|(row, answer)| *row == filled && *answer != 0);
                if !known {
                    let code = random.within(1, 2) as u8;
                    self.store(&filled, code);
                }
            }
        }
    }

    /// The tables, with rows in a random order that keeps children first.
    pub fn tables(&self, random: &mut Random) -> Tables {
        let mut order = vec![Term::Hole];
        let mut waiting: Vec<&Term> = self.rows.iter().map(|(term, _)| term).collect();
        while !waiting.is_empty() {
            let term = waiting.swap_remove(random.below(waiting.len()));
            place(term, &mut order);
        }
        let number = |term: &Term| order.iter().position(|row| row == term).unwrap_or(0) as u16;
        let lent = order.len() + *random.pick(&[0, 0, 1, 2, 3, 5, 9, 30]);
        let mut words = vec![7; lent * ROW_WORDS];
        for (term, words) in order.iter().zip(words.chunks_exact_mut(ROW_WORDS)) {
            let stored = self.rows.iter().find(|(row, _)| row == term);
            words.copy_from_slice(&row_words(term, stored.map_or(0, |row| row.1), number));
        }
        let mut lists = Lists::zeroed();
        lists.letters = self.counts.len() as u8;
        lists.counts[..self.counts.len()].copy_from_slice(&self.counts);
        lists.used = order.len() as u16;
        lists.states = self.s.len() as u16;
        lists.rules = self.t.len() as u16;
        lists.contexts = self.c.len() as u16;
        (0..self.s.len()).for_each(|at| lists.s[at] = number(&self.s[at]));
        (0..self.t.len()).for_each(|at| lists.t[at] = number(&self.t[at]));
        (0..self.c.len()).for_each(|at| lists.c[at] = number(&self.c[at]));
        lists.hand = self.hand.as_ref().map_or(0, number);
        lists.asked = self.asked.as_ref().map_or(0, number);
        lists.accepted = self.accepted;
        Tables { words, lists }
    }
}

fn row_words(term: &Term, answer: u8, number: impl Fn(&Term) -> u16) -> [u32; ROW_WORDS] {
    let mut words = [0; ROW_WORDS];
    words[1] = answer as u32;
    match term {
        Term::Hole => words[0] = crate::limits::HOLE_SYMBOL,
        Term::Node(symbol, children) => {
            words[0] = *symbol as u32;
            for (place, child) in children.iter().enumerate().take(CHILDREN_MAX) {
                words[2 + place] = number(child) as u32;
            }
        }
    }
    words
}

/// Appends a term's rows, children first.
fn place(term: &Term, order: &mut Vec<Term>) {
    if !order.contains(term) {
        for child in term.children() {
            place(child, order);
        }
        order.push(term.clone());
    }
}

/// A record's symbols, children before parent.
pub fn symbols(term: &Term) -> Vec<u8> {
    let Term::Node(symbol, children) = term else {
        return Vec::new();
    };
    let mut found: Vec<u8> = children.iter().flat_map(symbols).collect();
    found.push(*symbol);
    found
}
