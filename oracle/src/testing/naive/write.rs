//! Writing the run into tables, and the emitted list (docs/SPECIFICATION.md, 2 and 6).

use super::Naive;
use crate::lent::{Lists, Seen};
use crate::testing::terms::Term;

impl Naive {
    fn row_number(&self, term: &Term) -> u16 {
        self.rows.iter().position(|(row, _)| row == term).unwrap() as u16
    }

    /// Writes the run into lent tables, which hold the run before the call.
    pub fn write(&self, words: &mut [u32], lists: &mut Lists) -> Seen {
        for (row, (term, known)) in self.rows.iter().enumerate().skip(1) {
            let Term::Node(symbol, children) = term else {
                unreachable!("only row 0 is the hole");
            };
            let own = &mut words[6 * row..6 * row + 6];
            own.fill(0);
            own[0] = *symbol as u32;
            own[1] = known.map_or(0, |yes| yes as u32 + 1);
            for (place, child) in children.iter().enumerate() {
                own[2 + place] = self.row_number(child) as u32;
            }
        }
        let number = |term: &Option<Term>| term.as_ref().map_or(0, |term| self.row_number(term));
        let copy = |from: &[Term], to: &mut [u16]| {
            for (term, place) in from.iter().zip(to) {
                *place = self.row_number(term);
            }
        };
        lists.used = self.rows.len() as u16;
        lists.states = self.s.len() as u16;
        lists.rules = self.t.len() as u16;
        lists.contexts = self.c.len() as u16;
        copy(&self.s, &mut lists.s);
        copy(&self.t, &mut lists.t);
        copy(&self.c, &mut lists.c);
        lists.hand = number(&self.hand);
        lists.asked = number(&self.asked);
        lists.accepted = self.accepted as u8;
        self.seen()
    }

    pub fn seen(&self) -> Seen {
        let asked = self.asked.as_ref();
        Seen {
            number: 0,
            phase: if asked.is_some() {
                1
            } else {
                2 * self.accepted as u8
            },
            row: asked.map_or(0, |asked| self.row_number(asked)),
            states: self.s.len() as u16,
            rules: self.t.len() as u16,
            contexts: self.c.len() as u16,
        }
    }

    /// The emitted list.
    pub fn bytes(&self) -> Vec<u8> {
        let mut bytes = Vec::new();
        let mut block = |kind: u8, body: &[u8]| {
            bytes.extend([body.len() as u8, 0, 0, 0, kind, 0]);
            bytes.extend(body);
        };
        block(1, &self.counts);
        let finals: Vec<u8> = self
            .s
            .iter()
            .map(|s| (self.known(s) == Some(true)) as u8)
            .collect();
        block(2, &finals);
        for t in &self.t {
            let Term::Node(symbol, children) = t else {
                unreachable!("T has no hole");
            };
            let mut body = vec![*symbol];
            for child in children {
                body.push(self.s.iter().position(|s| s == child).unwrap() as u8);
            }
            body.push(self.target(t) as u8);
            block(3, &body);
        }
        bytes
    }
}
