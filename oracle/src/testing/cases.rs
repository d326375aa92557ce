//! One random case of each kind, from a seed: the tests run fixed counts of them, the
//! fuzz program as many as it is asked for.

use super::compare::{agree, fast, judge, Call, Tables};
use super::damage::{damage, unfolds_small};
use super::elsewhere::Loose;
use super::random::Random;
use super::target::Target;
use super::verdicts::{any_list, Verdicts};
use crate::lent::{Lists, ASKING, PROPOSING};
use crate::limits::ROW_WORDS;

/// How many tables of each sort the cases met, to know that they reach all of them.
#[derive(Debug, Default)]
pub struct Met {
    pub calls: usize,
    pub unsound: usize,
    pub proposing: usize,
    pub asking: usize,
    pub in_hand: usize,
    pub accepted: usize,
    pub shortages: usize,
    /// Records in hand that a call exchanged or put down.
    pub moved: usize,
    /// Taken calls that left more contexts than T4 allows.
    pub overfull: usize,
    pub verdicts: Verdicts,
}

impl Met {
    pub fn add(&mut self, other: &Met) {
        self.calls += other.calls;
        self.unsound += other.unsound;
        self.proposing += other.proposing;
        self.asking += other.asking;
        self.in_hand += other.in_hand;
        self.accepted += other.accepted;
        self.shortages += other.shortages;
        self.moved += other.moved;
        self.overfull += other.overfull;
        self.verdicts.add(&other.verdicts);
    }

    fn count(&mut self, tables: &mut Tables) -> bool {
        let seen = agree(tables, &Call::Look);
        match (seen.number, seen.phase) {
            (0, PROPOSING) => self.proposing += 1,
            (0, ASKING) if tables.lists.hand != 0 => self.in_hand += 1,
            (0, ASKING) => self.asking += 1,
            (0, _) => self.accepted += 1,
            _ => self.unsound += 1,
        }
        seen.number == 0
    }

    fn agree(&mut self, tables: &mut Tables, call: Call) -> u8 {
        self.calls += 1;
        let hand = tables.lists.hand;
        let seen = agree(tables, &call);
        self.moved += usize::from(hand != 0 && tables.lists.hand != hand);
        if matches!(call, Call::Answer(_) | Call::Offer(..)) && seen.number == 0 {
            let left = fast(tables, &Call::Look).seen.number;
            self.overfull += usize::from(left == 30);
        }
        self.shortages += usize::from(matches!(seen.number, 34..=36));
        seen.number
    }

    /// The verdict on some list of symbols.
    fn judge(&mut self, tables: &Tables, counts: &[u8], random: &mut Random) {
        let judged = judge(tables, &any_list(counts, random));
        self.verdicts.count(judged);
    }
}

/// A call that fits the phase, more often than not.
fn next_call(tables: &Tables, target: &Target, random: &mut Random) -> Call {
    if random.percent(5) {
        return match random.below(4) {
            0 => Call::Accept,
            1 => Call::Emit(random.below(120)),
            2 => Call::Answer(random.below(3) as u8),
            _ => Call::Offer(
                vec![random.below(5) as u8; random.below(4)],
                random.below(3) as u8,
            ),
        };
    }
    if tables.lists.asked != 0 {
        let used = tables.lists.used as usize;
        let honest = random.percent(90);
        let states = target.row_states(&tables.words, used, None);
        let truth = target.is_final(states[tables.lists.asked as usize]);
        return Call::Answer((truth == honest) as u8);
    }
    next_offer(tables, target, random)
}

/// An offer that is taken, if a few attempts find one.
fn next_offer(tables: &Tables, target: &Target, random: &mut Random) -> Call {
    let mut attempts = (0..8).map(|_| {
        let record = Target::random_record(target.counts(), random, 8);
        let mark = target.accepts(&record) == random.percent(90);
        Call::Offer(record, mark as u8)
    });
    let last = attempts.next().unwrap_or(Call::Look);
    let mut taken = attempts.filter(|call| fast(tables, call).seen.number == 0);
    taken.next().unwrap_or(last)
}

/// A fresh run of both learners, over few rows often enough to run out of them.
fn fresh(target: &Target, random: &mut Random, most: usize, met: &mut Met) -> Tables {
    let rows = *random.pick(&[1, 2, 4, 8, 16, 30, 60, 90]);
    let mut tables = Tables {
        words: (0..rows * ROW_WORDS)
            .map(|_| random.below(300) as u32)
            .collect(),
        lists: Lists::zeroed(),
    };
    tables.lists.c[200] = 5;
    met.agree(&mut tables, Call::Start(target.counts().to_vec()));
    for _ in 0..random.below(most) {
        if !unfolds_small(&tables) {
            break;
        }
        met.judge(&tables, target.counts(), random);
        let call = next_call(&tables, target, random);
        assert_ne!(met.agree(&mut tables, call), 30, "a fresh run is sound");
    }
    tables
}

/// A fresh run, step by step in both learners.
pub fn fresh_case(random: &mut Random, met: &mut Met) {
    let target = Target::random(random);
    let mut tables = fresh(&target, random, 60, met);
    if unfolds_small(&tables) {
        assert!(met.count(&mut tables), "a fresh run is sound:\n{tables:?}");
    }
}

/// Goes on from some tables in both learners, with every call at each point.
fn go_on(mut tables: Tables, target: &Target, random: &mut Random, met: &mut Met) {
    for _ in 0..8 {
        if !unfolds_small(&tables) {
            return;
        }
        let sound = met.count(&mut tables);
        met.judge(&tables, target.counts(), random);
        let trial = [
            Call::Accept,
            Call::Emit(200),
            Call::Answer(0),
            Call::Answer(1),
        ];
        for call in trial.into_iter().take(if sound { 4 } else { 2 }) {
            met.agree(&mut tables.clone(), call);
        }
        if !sound {
            return;
        }
        let call = next_call(&tables, target, random);
        met.agree(&mut tables, call);
    }
}

/// A fresh run that proposes, unless it grew too large or ran out of rows.
fn fresh_proposing(target: &Target, random: &mut Random, met: &mut Met) -> Tables {
    let mut tables = fresh(target, random, 24, met);
    for _ in 0..60 {
        if tables.lists.asked == 0 {
            break;
        }
        let states = target.row_states(&tables.words, tables.lists.used as usize, None);
        let truth = target.is_final(states[tables.lists.asked as usize]);
        tables = fast(&tables, &Call::Answer(truth as u8)).tables;
    }
    tables.lists.accepted = 0;
    tables
}

/// Trees to change: made up, or from a run.
fn loose(target: &Target, random: &mut Random, met: &mut Met) -> Option<Loose> {
    let kind = random.below(5);
    if kind == 0 {
        return Some(Loose::made_up(target, random));
    }
    let tables = match kind {
        1 => fresh(target, random, 20, met),
        _ => fresh_proposing(target, random, met),
    };
    if !unfolds_small(&tables) {
        return None;
    }
    let mut loose = Loose::of(&tables);
    match kind {
        1 => {}
        2 | 3 => {
            loose.take_in_hand(random);
            loose.open(random);
        }
        _ => {
            (0..random.below(3)).for_each(|_| loose.add_context(random));
            (0..random.below(4)).for_each(|_| loose.forget(random));
            loose.open(random);
        }
    }
    Some(loose)
}

/// Tables from elsewhere.
pub fn elsewhere_case(random: &mut Random, met: &mut Met) {
    let target = Target::random(random);
    let Some(mut loose) = loose(&target, random, met) else {
        return;
    };
    if random.percent(50) {
        (0..random.within(1, 3)).for_each(|_| loose.change(random));
    }
    if random.percent(20) {
        loose.complete(random);
    }
    go_on(loose.tables(random), &target, random, met);
}

/// Sound tables with one field damaged.
pub fn damaged_case(random: &mut Random, met: &mut Met) {
    let target = Target::random(random);
    let tables = fresh(&target, random, 30, met);
    for _ in 0..10 {
        let mut damaged = tables.clone();
        damage(&mut damaged, random);
        if !unfolds_small(&damaged) {
            continue;
        }
        let sound = met.count(&mut damaged);
        let leaf = Call::Offer(vec![0], random.below(2) as u8);
        let calls = [Call::Accept, Call::Emit(200), Call::Answer(1), leaf];
        for call in calls {
            met.agree(&mut damaged.clone(), call);
        }
        met.judge(&damaged, target.counts(), random);
        if sound && damaged.lists.alphabet() == target.counts() {
            go_on(damaged, &target, random, met);
        }
    }
}

/// Tables full of rubbish: both learners refuse them alike, whatever they hold.
pub fn rubbish_case(random: &mut Random, met: &mut Met) {
    let rows = random.within(1, 6);
    let mut tables = Tables {
        words: (0..rows * ROW_WORDS)
            .map(|_| random.below(4) as u32)
            .collect(),
        lists: Lists::zeroed(),
    };
    tables.words[..ROW_WORDS].copy_from_slice(&[255, 0, 0, 0, 0, 0]);
    tables.lists.letters = 3;
    tables.lists.counts[..3].copy_from_slice(&[0, 1, 2]);
    tables.lists.used = random.within(1, rows) as u16;
    tables.lists.contexts = 1;
    for _ in 0..random.below(8) {
        damage(&mut tables, random);
    }
    if unfolds_small(&tables) {
        for call in [
            Call::Look,
            Call::Accept,
            Call::Emit(99),
            Call::Answer(0),
            Call::Offer(vec![0], 1),
        ] {
            met.agree(&mut tables.clone(), call);
        }
        met.judge(&tables, &[0, 1, 2], random);
    }
}
