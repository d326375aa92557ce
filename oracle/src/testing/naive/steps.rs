//! The steps, word for word (docs/SPECIFICATION.md, 4).

use super::Naive;
use crate::testing::terms::Term;

impl Naive {
    /// Adds the rows of a record or context, children first, left to right; 34.
    pub fn store(&mut self, term: &Term) -> Result<(), u8> {
        for child in term.children() {
            self.store(child)?;
        }
        if self.rows.iter().all(|(row, _)| row != term) {
            if self.rows.len() == self.lent {
                return Err(34);
            }
            self.rows.push((term.clone(), None));
        }
        Ok(())
    }

    pub fn set_known(&mut self, record: &Term, yes: bool) {
        let row = self.rows.iter_mut().find(|(term, _)| term == record);
        row.unwrap().1 = Some(yes);
    }

    fn ask(&mut self, record: &Term) -> Result<(), u8> {
        self.store(record)?;
        self.asked = Some(record.clone());
        Ok(())
    }

    /// The steps after an offer or an answer. Each exchange leaves one occurrence fewer outside S.
    pub fn step(&mut self) -> Result<(), u8> {
        while let Some(hand) = self.hand.clone() {
            let mut occurrences = hand.occurrences().into_iter();
            let (u, c) = occurrences
                .find(|(term, _)| !self.s.contains(term))
                .unwrap();
            if !self.t.contains(&u) {
                self.new_transition(u, c)?;
                continue;
            }
            let exchanged = c.fill(&self.s[self.target(&u)]);
            match self.known(&exchanged) {
                None => return self.ask(&exchanged),
                same if same == self.known(&hand) => self.hand = Some(exchanged),
                _ => {
                    self.store(&c)?;
                    self.c.push(c);
                    self.hand = None;
                }
            }
        }
        for t in self.t.clone() {
            for c in self.c.clone() {
                let filled = c.fill(&t);
                if self.known(&filled).is_none() {
                    return self.ask(&filled);
                }
            }
        }
        self.grow()
    }

    fn new_transition(&mut self, u: Term, c: Term) -> Result<(), u8> {
        if self.t.len() == 256 {
            return Err(36);
        }
        self.t.push(u);
        if !self.c.contains(&c) {
            self.store(&c)?;
            self.c.push(c);
        }
        self.hand = None;
        Ok(())
    }

    fn grow(&mut self) -> Result<(), u8> {
        for t in self.t.clone() {
            let row = self.row(&t);
            if self.s.iter().all(|s| self.row(s) != row) {
                if self.s.len() == 32 {
                    return Err(35);
                }
                self.s.push(t);
            }
        }
        Ok(())
    }
}
