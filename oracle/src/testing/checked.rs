//! A run with every claim about it checked after every call
//! (docs/SPECIFICATION.md, 7).

use super::compare::Tables;
use super::random::Random;
use super::reading::proposal;
use super::refusals;
use super::target::{smallest_difference, Target};
use super::verdicts::{as_listed, beside_offer};
use crate::calls::{accept, answer, look, offer, start, verdict};
use crate::lent::{Lists, Row, Seen, ACCEPTED, ACCEPTS, ASKING, PROPOSING};
use crate::limits::{ROWS_MAX, ROW_WORDS};
use std::collections::HashSet;

/// A fresh run and what was seen of it. Without a target the answers are random.
pub struct Checked<'a> {
    pub words: Vec<u32>,
    pub lists: Lists,
    target: Option<&'a Target>,
    pub taken: usize,
    pub shown: usize,
    pub questions: usize,
    spoken: HashSet<Row>,
    /// |S| + |T| and records taken at the last proposal.
    proposal: (usize, usize),
}

impl<'a> Checked<'a> {
    /// Starts a run over so many rows, which hold rubbish before.
    pub fn start(counts: &[u8], rows: usize, target: Option<&'a Target>) -> Checked<'a> {
        let mut run = Checked {
            words: vec![9; rows * ROW_WORDS],
            lists: Lists::zeroed(),
            target,
            taken: 0,
            shown: 0,
            questions: 0,
            spoken: HashSet::new(),
            proposal: (0, 0),
        };
        let seen = start(&mut run.words, &mut run.lists, counts);
        run.check(seen);
        run
    }

    /// Offers a record; the claims are checked if it is taken.
    pub fn offer(&mut self, symbols: &[u8], mark: u8) -> Seen {
        let before = (self.words.clone(), self.lists.clone());
        let judged = verdict(&self.words, &self.lists, symbols);
        let seen = offer(&mut self.words, &mut self.lists, symbols, mark);
        beside_offer(&before.1, judged, mark, seen.number);
        if seen.number == 0 {
            self.taken += 1;
            let offered = self.stored(symbols).expect("a taken offer is stored");
            self.spoken.insert(offered);
            self.check(seen);
        } else {
            assert!((&self.words, &self.lists) == (&before.0, &before.1));
        }
        seen
    }

    /// Answers the open question.
    pub fn answer(&mut self, mark: u8) -> Seen {
        let before = (self.words.clone(), self.lists.clone());
        let seen = answer(&mut self.words, &mut self.lists, mark);
        if seen.number == 0 {
            self.questions += 1;
            self.check(seen);
        } else {
            assert!((&self.words, &self.lists) == (&before.0, &before.1));
        }
        seen
    }

    /// What the target says of a row.
    pub fn truth(&self, target: &Target, row: Row) -> u8 {
        let states = target.row_states(&self.words, self.lists.used as usize, None);
        target.is_final(states[row as usize]) as u8
    }

    /// The row of a record, by a walk over the table.
    fn stored(&self, symbols: &[u8]) -> Option<Row> {
        let mut ready: Vec<u32> = Vec::new();
        for &symbol in symbols {
            let rest = ready.len() - self.lists.counts[symbol as usize] as usize;
            let mut wanted = [0; ROW_WORDS - 2];
            wanted[..ready.len() - rest].copy_from_slice(&ready[rest..]);
            let mut rows = self
                .words
                .chunks_exact(ROW_WORDS)
                .take(self.lists.used as usize);
            let row = rows.position(|row| row[0] == symbol as u32 && row[2..] == wanted)?;
            ready.truncate(rest);
            ready.push(row as u32);
        }
        Some(ready[0] as Row)
    }

    /// The claims after a taken call.
    fn check(&mut self, seen: Seen) {
        assert_eq!(
            seen,
            look(&self.words, &self.lists),
            "looking tells the same"
        );
        let sum = seen.states as usize + seen.rules as usize;
        if seen.phase == PROPOSING {
            self.shown += 1;
            let (before, taken) = self.proposal;
            assert!(sum >= before + self.taken - taken, "each record taken adds");
            self.proposal = (sum, self.taken);
        }
        if seen.phase == ASKING {
            assert!(
                self.spoken.insert(seen.row),
                "row {} is asked again",
                seen.row
            );
        }
        let open = usize::from(seen.phase == ASKING);
        assert_eq!(
            self.shown + open,
            self.taken + 1,
            "one proposal for each record"
        );
        assert!(self.taken <= sum, "more records taken than S and T hold");
        if let Some(target) = self.target {
            self.check_target(target, seen);
        }
    }

    /// The claims about an automaton that agrees with all answers.
    fn check_target(&self, target: &Target, seen: Seen) {
        let states = target.row_states(&self.words, self.lists.used as usize, None);
        let mut reached = HashSet::new();
        for &row in self.lists.representatives() {
            let state = states[row as usize].expect("a representative leads to a state");
            assert!(
                reached.insert(state),
                "two representatives lead to one state"
            );
        }
        let mut used = HashSet::new();
        for &row in self.lists.transitions() {
            let words = &self.words[row as usize * ROW_WORDS..][..ROW_WORDS];
            let count = target.counts()[words[0] as usize] as usize;
            let children = words[2..][..count].iter();
            let children: Vec<_> = children.map(|&child| states[child as usize]).collect();
            let rule = target.rule(words[0] as u8, &children);
            assert!(
                used.insert(rule.expect("a transition uses a rule")),
                "one rule twice"
            );
        }
        let most = target.automaton.finals.len() + target.automaton.rules.len();
        assert!(
            self.taken <= most && self.shown <= most + 1,
            "too many records"
        );
        if seen.phase == PROPOSING {
            self.check_list(target, &states);
        }
    }

    /// The emitted list, read again, is the automaton of S and T.
    fn check_list(&self, target: &Target, states: &[Option<u8>]) {
        let read = self.hypothesis().automaton;
        assert_eq!(read.counts, target.counts());
        assert_eq!(read.finals.len(), self.lists.states as usize);
        assert_eq!(read.rules.len(), self.lists.rules as usize);
        let rows = self.rows_of_states(target);
        let row_of = |row: Row| states[row as usize].map(|state| &rows[state as usize]);
        for (rule, &row) in read.rules.iter().zip(self.lists.transitions()) {
            let words = &self.words[row as usize * ROW_WORDS..][..ROW_WORDS];
            assert_eq!(rule.symbol as u32, words[0]);
            for (&state, &child) in rule.children.iter().zip(&words[2..]) {
                assert_eq!(self.lists.s[state as usize] as u32, child);
            }
            let representative = self.lists.s[rule.target as usize];
            assert_eq!(row_of(representative), row_of(row), "the row decides");
        }
        for (&last, &row) in read.finals.iter().zip(self.lists.representatives()) {
            assert_eq!(last, target.is_final(states[row as usize]));
        }
    }

    /// For each state of the target, its answers at all contexts.
    fn rows_of_states(&self, target: &Target) -> Vec<Vec<bool>> {
        let row = |state| {
            let states = target.row_states(&self.words, self.lists.used as usize, Some(state));
            let contexts = self.lists.contexts().iter();
            contexts
                .map(|&context| target.is_final(states[context as usize]))
                .collect()
        };
        (0..target.automaton.finals.len() as u8).map(row).collect()
    }

    /// The proposed automaton, through its list.
    pub fn hypothesis(&self) -> Target {
        proposal(&self.words, &self.lists)
    }

    /// Answers by the target until the run proposes or is refused. No row is asked twice, as
    /// `check` sees.
    pub fn answer_all(&mut self, target: &Target, mut seen: Seen) -> Seen {
        while seen.number == 0 && seen.phase == ASKING {
            seen = self.answer(self.truth(target, seen.row));
        }
        seen
    }

    /// Accepts and checks what that leaves.
    pub fn accept(&mut self) {
        let seen = accept(&mut self.words, &mut self.lists);
        assert_eq!((seen.number, seen.phase), (0, ACCEPTED));
        assert_eq!(seen, look(&self.words, &self.lists));
        refusals::try_all(&mut self.words, &mut self.lists);
    }
}

/// A failed claim prints the tables that broke it.
impl Drop for Checked<'_> {
    fn drop(&mut self) {
        if std::thread::panicking() {
            let tables = Tables {
                words: self.words.clone(),
                lists: self.lists.clone(),
            };
            eprintln!("{} taken, {} shown, {tables:?}", self.taken, self.shown);
            if let Some(target) = self.target {
                eprintln!("learning {:?}", target.automaton);
            }
        }
    }
}

/// Learns a target with smallest counterexamples until it is accepted or refused. Each record
/// taken adds to S and T, as `check` sees, so they are not more than 288.
pub fn learn(target: &Target, rows: usize) -> (Checked<'_>, Seen) {
    let mut run = Checked::start(target.counts(), rows, Some(target));
    let mut seen = look(&run.words, &run.lists);
    while let Some(record) = smallest_difference(target, &run.hypothesis()) {
        seen = run.offer(&record, target.accepts(&record) as u8);
        seen = run.answer_all(target, seen);
        if seen.number != 0 {
            return (run, seen);
        }
    }
    run.accept();
    (run, seen)
}

/// Learns a random target with counterexamples of any size, refused calls in between;
/// again with smallest ones and all the rows there may be if a few do not suffice, which
/// it returns.
pub fn learn_random(random: &mut Random, most_states: usize) -> bool {
    let target = Target::sized(random, most_states);
    let large = random.percent(50);
    let again = !learn_within(&target, large, ROWS_MAX / 32, random);
    if again {
        let learnt = learn_within(&target, false, ROWS_MAX, random);
        assert!(learnt, "rows run out for {:?}", target.automaton);
    }
    again
}

/// Learns a target, with as many turns at most; false if rows run out.
fn learn_within(target: &Target, large: bool, rows: usize, random: &mut Random) -> bool {
    let mut run = Checked::start(target.counts(), rows, Some(target));
    loop {
        refusals::try_all(&mut run.words, &mut run.lists);
        let proposed = run.hypothesis();
        let Some(smallest) = smallest_difference(target, &proposed) else {
            break;
        };
        let tried = (0..if large { 20 } else { 0 })
            .map(|_| Target::random_record(target.counts(), random, 60));
        let mut differing = tried.filter(|record| {
            let judged = as_listed(&run.words, &run.lists, &proposed, record);
            target.accepts(record) != (judged.outcome == ACCEPTS)
        });
        let record = differing.next().unwrap_or(smallest);
        let mark = target.accepts(&record) as u8;
        // The opposite mark is the verdict; 33 comes first, where the record was spoken of.
        let known = run.stored(&record).map(|row| run.spoken.contains(&row));
        let number = if known == Some(true) { 33 } else { 32 };
        assert_eq!(run.offer(&record, 1 - mark).number, number);
        let mut seen = run.offer(&record, mark);
        while seen.number == 0 && seen.phase == ASKING {
            if random.percent(20) {
                refusals::try_all(&mut run.words, &mut run.lists);
            }
            seen = run.answer(run.truth(target, seen.row));
        }
        if seen.number == 34 {
            return false;
        }
        assert_eq!(seen.number, 0, "an honest run of {:?}", target.automaton);
    }
    run.accept();
    true
}

/// Offers and answers at random: no automaton need agree with them. Each turn takes a record,
/// answers a question or is refused, and all three are counted or bounded by S and T. Returns
/// how often a question was answered after an answer to it had been refused for want of room.
pub fn contradict(random: &mut Random) -> usize {
    let counts = Target::random(random).counts().to_vec();
    let rows = *random.pick(&[20, 60, 200, 1000]);
    let mut run = Checked::start(&counts, rows, None);
    let (mut refused, mut stuck, mut answered) = (0, false, 0);
    while refused < 40 && run.questions < 400 {
        let asking = run.lists.asked != 0;
        let mark = random.below(2) as u8;
        let seen = match asking {
            true => run.answer(mark),
            false => run.offer(&Target::random_record(&counts, random, 14), mark),
        };
        if seen.number == 0 {
            answered += usize::from(stuck);
            stuck = false;
        } else {
            assert!(matches!(seen.number, 32..=36), "refused {}", seen.number);
            refused += 1;
            stuck = asking;
        }
    }
    answered
}
