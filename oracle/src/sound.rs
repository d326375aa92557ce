//! Soundness of lent tables, T1 to T8 (docs/SPECIFICATION.md, 2.3). Nothing lent is
//! trusted: every call begins here.

use crate::lent::{Lists, Refusal};
use crate::observe::{Answers, Observations};
use crate::roles::Roles;
use crate::run::Run;
use crate::table::{check_size, Records, UNKNOWN, YES};

impl Run {
    /// Reads lent tables: refusal 18, then 30.
    pub fn read(words: &[u32], lists: &Lists) -> Result<Run, Refusal> {
        check_size(words)?;
        Run::read_sound(words, lists).ok_or(Refusal::Unsound)
    }

    fn read_sound(words: &[u32], lists: &Lists) -> Option<Run> {
        if !lists.ends_fit() {
            return None;
        }
        let records = Records::read(words, lists)?;
        let roles = Roles::read(&records, lists)?;
        if !contexts_fit(&records, lists) {
            return None;
        }
        let observed = Observations::of(&records, lists.transitions(), lists.contexts());
        let answers: Vec<Answers> = (0..lists.transitions().len())
            .map(|transition| observed.answers(&records, transition))
            .collect();
        let states = state_answers(lists, &roles, &answers);
        if !separated(&states) || !answers.iter().all(Answers::any_yes) {
            return None;
        }
        let mut run = Run {
            records,
            lists: lists.clone(),
            roles,
            observed,
            targets: None,
        };
        if run.observed.first_unknown(&run.records).is_none() {
            if !contexts_settled(lists) {
                return None;
            }
            run.targets = Some(targets(&states, &answers)?);
        }
        run.phase_fits().then_some(run)
    }

    /// T7 and T8.
    fn phase_fits(&self) -> bool {
        let (hand, asked) = (self.lists.hand, self.lists.asked);
        let complete = self.targets.is_some();
        let open = asked != 0;
        let phases = match (open, self.lists.accepted) {
            (true, 0) => self.records.is_record(asked) && self.records.answer(asked) == UNKNOWN,
            (false, 0 | 1) => hand == 0 && complete,
            _ => false,
        };
        phases && (hand == 0 || complete && self.hand_fits())
    }

    /// T7 for a record in hand, when no answer is missing.
    fn hand_fits(&self) -> bool {
        let hand = self.lists.hand;
        self.records.is_record(hand)
            && self.records.answer(hand) != UNKNOWN
            && (self.records.answer(hand) == YES) != self.accepts(hand)
    }
}

/// T4, as far as it does not depend on answers.
fn contexts_fit(records: &Records, lists: &Lists) -> bool {
    let contexts = lists.contexts();
    let most = 1 + lists.representatives().len() + lists.transitions().len();
    if contexts.first() != Some(&0) || contexts.len() > most {
        return false;
    }
    let mut listed = vec![false; records.used()];
    contexts.iter().all(|&row| {
        (row as usize) < records.used()
            && records.holed(row)
            && !std::mem::replace(&mut listed[row as usize], true)
    })
}

/// T4 when no answer of T at C is missing.
fn contexts_settled(lists: &Lists) -> bool {
    let most = lists.representatives().len() + lists.transitions().len();
    lists.contexts().len() <= most.max(1)
}

/// The answers of each representative, which is a transition as well.
fn state_answers(lists: &Lists, roles: &Roles, answers: &[Answers]) -> Vec<Answers> {
    let positions = lists.representatives().iter();
    positions
        .filter_map(|&row| roles.rule(row))
        .map(|transition| answers[transition].clone())
        .collect()
}

/// T5 for representatives: any two differ where both answers are known.
fn separated(states: &[Answers]) -> bool {
    (0..states.len()).all(|one| states[..one].iter().all(|other| states[one].differ(other)))
}

/// T6 when no answer is missing: the one state whose row each transition has.
fn targets(states: &[Answers], answers: &[Answers]) -> Option<Vec<u8>> {
    let target = |row: &Answers| {
        let mut equal = (0..states.len()).filter(|&state| &states[state] == row);
        match (equal.next(), equal.next()) {
            (Some(state), None) => Some(state as u8),
            _ => None,
        }
    };
    answers.iter().map(target).collect()
}
