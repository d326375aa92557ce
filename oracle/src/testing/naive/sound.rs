//! Reading tables: T1 to T8 by their text (docs/SPECIFICATION.md, 2.3).

use super::{Known, Naive};
use crate::lent::Lists;
use crate::limits::ROWS_MAX;
use crate::testing::terms::Term;

/// 18, then 30 or the run that the tables hold.
pub fn read(words: &[u32], lists: &Lists) -> Result<Naive, u8> {
    if words.is_empty() || !words.len().is_multiple_of(6) || words.len() > 6 * ROWS_MAX {
        return Err(18);
    }
    let run = unfold(words, lists).ok_or(30)?;
    if run.lists_sound() && run.answers_sound() && run.phase_sound() {
        Ok(run)
    } else {
        Err(30)
    }
}

/// T1, and the lists as trees if their rows are in use.
fn unfold(words: &[u32], lists: &Lists) -> Option<Naive> {
    let used = lists.used as usize;
    let counts = lists.counts.get(..lists.letters as usize)?.to_vec();
    if counts.is_empty() || counts.iter().any(|&count| count > 4) {
        return None;
    }
    if used < 1 || used > words.len() / 6 || words[..6] != [255, 0, 0, 0, 0, 0] {
        return None;
    }
    let mut rows = vec![(Term::Hole, None)];
    for row in 1..used {
        rows.push(unfold_row(words, row, &counts, &rows)?);
    }
    let term = |row: &u16| Some(rows.get(*row as usize)?.0.clone());
    let terms = |rows: &[u16]| rows.iter().map(term).collect::<Option<Vec<Term>>>();
    let some = |row: u16| {
        if row == 0 {
            Some(None)
        } else {
            term(&row).map(Some)
        }
    };
    if lists.accepted > 1 {
        return None;
    }
    Some(Naive {
        s: terms(lists.s.get(..lists.states as usize)?)?,
        t: terms(lists.t.get(..lists.rules as usize)?)?,
        c: terms(lists.c.get(..lists.contexts as usize)?)?,
        hand: some(lists.hand)?,
        asked: some(lists.asked)?,
        accepted: lists.accepted == 1,
        counts,
        lent: words.len() / 6,
        rows,
    })
}

/// T1 for one row beyond row 0.
fn unfold_row(
    words: &[u32],
    row: usize,
    counts: &[u8],
    rows: &[(Term, Known)],
) -> Option<(Term, Known)> {
    let own = &words[6 * row..6 * row + 6];
    let count = *counts.get(own[0] as usize)? as usize;
    let (children, unused) = own[2..].split_at(count);
    if unused.iter().any(|&child| child != 0) || own[1] > 2 {
        return None;
    }
    for earlier in 1..row {
        let other = &words[6 * earlier..6 * earlier + 6];
        if other[0] == own[0] && other[2..] == own[2..] {
            return None;
        }
    }
    let children: Option<Vec<Term>> = children
        .iter()
        .map(|&child| Some(rows.get(child as usize)?.0.clone()))
        .collect();
    let term = Term::Node(own[0] as u8, children?);
    let known = [None, Some(false), Some(true)][own[1] as usize];
    let fits = term.holes() == 0 || term.holes() == 1 && known.is_none();
    fits.then_some((term, known))
}

/// Whether no member is listed twice.
fn no_repeats(terms: &[Term]) -> bool {
    (0..terms.len()).all(|place| !terms[..place].contains(&terms[place]))
}

impl Naive {
    /// T2, T3 and T4.
    fn lists_sound(&self) -> bool {
        let (s, t, c) = (&self.s, &self.t, &self.c);
        let t2 = t.len() <= 256
            && no_repeats(t)
            && t.iter().all(|record| record.holes() == 0)
            && t.iter()
                .all(|record| record.children().iter().all(|child| s.contains(child)));
        let t3 = s.len() <= 32 && no_repeats(s) && s.iter().all(|record| t.contains(record));
        let both = s.len() + t.len();
        let most = match (self.missing(), both) {
            (true, _) => both + 1,
            (false, 0) => 1,
            (false, _) => both,
        };
        let t4 = c.first() == Some(&Term::Hole)
            && no_repeats(c)
            && c.iter().all(|context| context.holes() == 1)
            && c.len() <= 1 + both
            && c.len() <= most;
        t2 && t3 && t4
    }

    /// T5 and T6.
    fn answers_sound(&self) -> bool {
        let differ = |one: &Term, other: &Term| {
            let pairs = self.row(one).into_iter().zip(self.row(other));
            pairs
                .into_iter()
                .any(|pair| matches!(pair, (Some(a), Some(b)) if a != b))
        };
        let apart = self.s.iter().all(|one| {
            self.s
                .iter()
                .all(|other| one == other || differ(one, other))
        });
        let alive = self
            .t
            .iter()
            .all(|record| self.row(record).contains(&Some(true)));
        let equals = |record: &Term| {
            let row = self.row(record);
            self.s.iter().filter(|state| self.row(state) == row).count()
        };
        let t6 = self.missing() || self.t.iter().all(|record| equals(record) == 1);
        apart && alive && t6
    }

    /// T7 and T8.
    fn phase_sound(&self) -> bool {
        let t7 = self.hand.as_ref().is_none_or(|hand| {
            let known = self.known(hand);
            hand.holes() == 0
                && known.is_some()
                && !self.missing()
                && known != Some(self.accepts(hand))
        });
        let open = self.asked.as_ref();
        let t8 = open.is_none_or(|asked| asked.holes() == 0 && self.known(asked).is_none())
            && (open.is_some() || self.hand.is_none() && !self.missing())
            && !(self.accepted && open.is_some());
        t7 && t8
    }
}
