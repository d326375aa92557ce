//! A second learner, deliberately naive: records are trees, every lookup compares whole
//! trees, soundness is the text of T1 to T8, and the steps are read word for word. It is
//! for small tables, where it decides what the fast one must do.

mod sound;
mod steps;
mod verdict;
mod write;

use super::terms::Term;
use crate::lent::{Emitted, Judged, Lists, Seen};
use sound::read;

/// Yes, no, or unknown.
type Known = Option<bool>;

/// A run over trees.
#[derive(Clone)]
struct Naive {
    counts: Vec<u8>,
    lent: usize,
    rows: Vec<(Term, Known)>,
    s: Vec<Term>,
    t: Vec<Term>,
    c: Vec<Term>,
    hand: Option<Term>,
    asked: Option<Term>,
    accepted: bool,
}

impl Naive {
    fn known(&self, record: &Term) -> Known {
        self.rows.iter().find(|(term, _)| term == record)?.1
    }

    /// The row of a record: its answers at all contexts.
    fn row(&self, record: &Term) -> Vec<Known> {
        let answer = |context: &Term| self.known(&context.fill(record));
        self.c.iter().map(answer).collect()
    }

    /// Whether an answer of T at C is missing.
    fn missing(&self) -> bool {
        self.t.iter().any(|record| self.row(record).contains(&None))
    }

    /// The representative with the row of a transition, by state number.
    fn target(&self, transition: &Term) -> usize {
        let row = self.row(transition);
        let mut states = 0..self.s.len();
        states
            .find(|&state| self.row(&self.s[state]) == row)
            .unwrap()
    }

    /// The listed record: 11, 12, then 13 or 14 at the first symbol at fault, then 15.
    fn listed(&self, symbols: &[u8]) -> Result<Term, u8> {
        if symbols.is_empty() {
            return Err(11);
        }
        if symbols.len() > 1024 {
            return Err(12);
        }
        let mut ready: Vec<Term> = Vec::new();
        for &symbol in symbols {
            let count = *self.counts.get(symbol as usize).ok_or(13)? as usize;
            if count > ready.len() {
                return Err(14);
            }
            let children = ready.split_off(ready.len() - count);
            ready.push(Term::Node(symbol, children));
        }
        if ready.len() > 1 {
            return Err(15);
        }
        Ok(ready.remove(0))
    }
}

fn refused(number: u8) -> Seen {
    Seen {
        number,
        ..Seen::default()
    }
}

pub fn start(words: &mut [u32], lists: &mut Lists, counts: &[u8]) -> Seen {
    if words.is_empty() || !words.len().is_multiple_of(6) || words.len() / 6 > 16_384 {
        return refused(18);
    }
    if counts.is_empty() || counts.len() > 64 || counts.iter().any(|&count| count > 4) {
        return refused(17);
    }
    words[0] = 255;
    words[1..6].fill(0);
    *lists = Lists::zeroed();
    lists.letters = counts.len() as u8;
    for (place, &count) in counts.iter().enumerate() {
        lists.counts[place] = count;
    }
    lists.used = 1;
    lists.contexts = 1;
    look(words, lists)
}

pub fn look(words: &[u32], lists: &Lists) -> Seen {
    match read(words, lists) {
        Ok(run) => run.seen(),
        Err(number) => refused(number),
    }
}

/// Makes a call on the run and writes it back unless the call is refused.
fn call(
    words: &mut [u32],
    lists: &mut Lists,
    change: impl FnOnce(&mut Naive) -> Result<(), u8>,
) -> Seen {
    let outcome = read(words, lists).and_then(|mut run| {
        change(&mut run)?;
        Ok(run)
    });
    match outcome {
        Ok(run) => run.write(words, lists),
        Err(number) => refused(number),
    }
}

pub fn offer(words: &mut [u32], lists: &mut Lists, symbols: &[u8], mark: u8) -> Seen {
    call(words, lists, |run| {
        if run.asked.is_some() || run.accepted {
            return Err(31);
        }
        let record = run.listed(symbols)?;
        if mark > 1 {
            return Err(16);
        }
        if run.known(&record) == Some(mark == 0) {
            return Err(33);
        }
        if run.accepts(&record) == (mark == 1) {
            return Err(32);
        }
        run.store(&record)?;
        run.set_known(&record, mark == 1);
        run.hand = Some(record);
        run.step()
    })
}

pub fn answer(words: &mut [u32], lists: &mut Lists, mark: u8) -> Seen {
    call(words, lists, |run| {
        let asked = run.asked.take().ok_or(31)?;
        if mark > 1 {
            return Err(16);
        }
        run.set_known(&asked, mark == 1);
        run.step()
    })
}

pub fn accept(words: &mut [u32], lists: &mut Lists) -> Seen {
    call(words, lists, |run| {
        if run.asked.is_some() || run.accepted {
            return Err(31);
        }
        run.accepted = true;
        Ok(())
    })
}

pub fn emit(words: &[u32], lists: &Lists, out: &mut [u8]) -> Emitted {
    let refused = |number| Emitted { number, size: 0 };
    let run = match read(words, lists) {
        Ok(run) if run.asked.is_some() => return refused(31),
        Ok(run) => run,
        Err(number) => return refused(number as u32),
    };
    let bytes = run.bytes();
    if bytes.len() > out.len() {
        return refused(20);
    }
    out[..bytes.len()].copy_from_slice(&bytes);
    Emitted {
        number: 0,
        size: bytes.len() as u32,
    }
}

pub fn verdict(words: &[u32], lists: &Lists, symbols: &[u8]) -> Judged {
    let judged = read(words, lists).and_then(|run| {
        if run.asked.is_some() {
            return Err(31);
        }
        Ok(run.judge(&run.listed(symbols)?))
    });
    judged.unwrap_or_else(|number| Judged {
        number,
        ..Judged::default()
    })
}
