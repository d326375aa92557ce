//! Verdicts on listed records (docs/SPECIFICATION.md, 1.4 and 3.8): what an offer beside one
//! gets, what the emitted list says, and records to ask about.

use super::checked::Checked;
use super::compare::{judge, Tables};
use super::damage::unfolds_small;
use super::likely;
use super::random::Random;
use super::target::{smallest_difference, Target};
use crate::calls::verdict;
use crate::lent::{Judged, Lists, Verdict, ACCEPTS, NOT_FINAL};
use crate::limits::RECORD_MAX;

/// How many verdicts of each sort there were.
#[derive(Debug, Default)]
pub struct Verdicts {
    pub accepted: usize,
    pub not_final: usize,
    /// No rule for the first symbol.
    pub first: usize,
    /// No rule at a later place.
    pub later: usize,
    pub refused: usize,
}

impl Verdicts {
    pub fn count(&mut self, judged: Judged) {
        match (judged.number, judged.outcome, judged.place) {
            (0, ACCEPTS, _) => self.accepted += 1,
            (0, NOT_FINAL, _) => self.not_final += 1,
            (0, _, 0) => self.first += 1,
            (0, ..) => self.later += 1,
            _ => self.refused += 1,
        }
    }

    pub fn add(&mut self, other: &Verdicts) {
        self.accepted += other.accepted;
        self.not_final += other.not_final;
        self.first += other.first;
        self.later += other.later;
        self.refused += other.refused;
    }
}

/// Panics unless an offer of a judged record to the same tables gets a number that fits:
/// the same refusal, and 32 only where the mark is the verdict (5.2, 5.3).
pub fn beside_offer(lists: &Lists, judged: Judged, mark: u8, number: u8) {
    let same = (judged.outcome == ACCEPTS) == (mark == 1);
    let fits = match judged.number {
        18 | 30 => number == judged.number,
        _ if lists.accepted == 1 => number == 31,
        0 if mark > 1 => number == 16,
        0 if same => matches!(number, 32 | 33),
        0 => matches!(number, 0 | 33..=36),
        refused => number == refused,
    };
    assert!(
        fits,
        "{number} to an offer with mark {mark}, beside {judged:?}"
    );
}

/// The verdict of an automaton that was read from a list.
pub fn by_list(proposed: &Target, symbols: &[u8]) -> Judged {
    let states = proposed.place_states(symbols);
    let verdict = match states.iter().position(Option::is_none) {
        Some(place) => Verdict::NoRule(place as u16),
        None if proposed.accepts(symbols) => Verdict::Accepted,
        None => Verdict::NotFinal,
    };
    verdict.into()
}

/// The verdict on a record; panics unless it is that of the emitted list.
pub fn as_listed(words: &[u32], lists: &Lists, proposed: &Target, symbols: &[u8]) -> Judged {
    let judged = verdict(words, lists, symbols);
    assert_eq!(judged, by_list(proposed, symbols), "of {symbols:?}");
    judged
}

/// A list of symbols, most often a record, over an alphabet whose symbol 0 is a leaf.
pub fn any_list(counts: &[u8], random: &mut Random) -> Vec<u8> {
    let mut symbols = Target::random_record(counts, random, 12);
    let place = random.below(symbols.len());
    match random.below(24) {
        0 => symbols.clear(),
        1 => symbols[place] = random.below(counts.len() + 1) as u8,
        2 => symbols.insert(place, random.below(counts.len() + 1) as u8),
        3 => drop(symbols.remove(place)),
        _ => {}
    }
    symbols
}

/// A run from smallest counterexamples that stops somewhere; none if rows run out.
fn some_run<'a>(target: &'a Target, random: &mut Random) -> Option<Checked<'a>> {
    let mut run = Checked::start(target.counts(), 400, Some(target));
    for _ in 0..random.below(16) {
        let Some(record) = smallest_difference(target, &run.hypothesis()) else {
            break;
        };
        let seen = run.offer(&record, target.accepts(&record) as u8);
        if run.answer_all(target, seen).number != 0 {
            return None;
        }
    }
    Some(run)
}

/// Verdicts on long records, as the emitted list has them, and the same once the run is
/// accepted; by both learners if the trees are small enough for the naive one.
pub fn long_case(random: &mut Random, met: &mut Verdicts) {
    let target = Target::random(random);
    let Some(mut run) = some_run(&target, random) else {
        return;
    };
    let proposed = run.hypothesis();
    let before = Tables {
        words: run.words.clone(),
        lists: run.lists.clone(),
    };
    run.accept();
    for _ in 0..8 {
        let record = likely::record(&proposed, random, RECORD_MAX);
        let judged = as_listed(&before.words, &before.lists, &proposed, &record);
        assert_eq!(verdict(&run.words, &run.lists, &record), judged);
        if unfolds_small(&before) {
            judge(&before, &record);
        }
        met.count(judged);
    }
}
