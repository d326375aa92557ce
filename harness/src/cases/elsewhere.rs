//! Tables from elsewhere, sound or nearly so: every call on them, and a run that goes on from them.

use super::compare::Met;
use super::refusals::try_all;
use crate::strange::{shuffled, Strange};
use crate::teacher::Taught;
use crate::teaching::truth;
use oracle::limits::ROW_WORDS;
use oracle::testing::compare::{Call, Tables};
use oracle::testing::damage::unfolds_small;
use oracle::testing::elsewhere::Loose;
use oracle::testing::random::Random;
use oracle::testing::target::Target;

/// A few offers over the alphabet of the lists, if it has a leaf in front.
fn offers(tables: &Tables, random: &mut Random) -> Vec<Call> {
    let letters = tables.lists.letters as usize;
    let counts = tables.lists.counts.get(..letters).unwrap_or(&[]);
    let mut found = vec![Call::Offer(vec![0], 0), Call::Offer(vec![0], 1)];
    if counts.first() == Some(&0) && counts.iter().all(|&count| count <= 4) {
        for size in [4, 12, 40] {
            let record = Target::random_record(counts, random, size);
            found.extend([0, 1].map(|mark| Call::Offer(record.clone(), mark)));
        }
    }
    found
}

/// Every call on copies of the tables.
pub fn every_call(tables: &Tables, random: &mut Random, met: &mut Met) {
    let mut calls = vec![Call::Look, Call::Accept, Call::Answer(0), Call::Answer(1)];
    calls.extend(offers(tables, random));
    for call in &calls {
        let mut tables = tables.clone();
        let seen = met.call(&mut tables, call);
        if seen.number == 0 && met.try_call(&tables, &Call::Look).number != 0 {
            met.overfull += 1;
        }
    }
    met.emit_and_judge(tables);
}

/// Goes on for so many calls, answers by the target most of the time.
fn go_on(mut tables: Tables, target: &Target, random: &mut Random, calls: usize, met: &mut Met) {
    for _ in 0..calls {
        every_call(&tables, random, met);
        if met.try_call(&tables, &Call::Look).number != 0 {
            return;
        }
        if random.percent(10) {
            try_all(&tables, random, met);
        }
        let call = match tables.lists.asked {
            0 => {
                let record = Target::random_record(target.counts(), random, 12);
                let mark = target.accepts(&record) as u8;
                Call::Offer(record, mark)
            }
            asked => {
                let right = truth(target, &tables, asked);
                Call::Answer((right == random.percent(90)) as u8)
            }
        };
        met.call(&mut tables, &call);
    }
}

/// Trees of a run or made up, changed a few times.
pub fn loose(target: Target, random: &mut Random) -> Option<Loose> {
    let mut loose = match random.below(4) {
        0 => Loose::made_up(&target, random),
        _ => {
            let calls = random.below(16);
            let tables = Taught::start(target, 100, 200).proposing(random, calls)?;
            unfolds_small(&tables).then(|| Loose::of(&tables))?
        }
    };
    match random.below(5) {
        0 | 1 => {
            loose.take_in_hand(random);
            loose.open(random);
        }
        2 | 3 => {
            (0..random.below(3)).for_each(|_| loose.add_context(random));
            (0..random.below(4)).for_each(|_| loose.forget(random));
            loose.open(random);
        }
        _ => {}
    }
    if random.percent(40) {
        (0..random.within(1, 3)).for_each(|_| loose.change(random));
    }
    if random.percent(20) {
        loose.complete(random);
    }
    Some(loose)
}

/// Changed trees, every call on them, and a run that goes on from them.
pub fn changed_trees(random: &mut Random, met: &mut Met) {
    let target = Target::random(random);
    let same = Target::new(target.automaton.clone());
    if let Some(loose) = loose(same, random) {
        let tables = loose.tables(random);
        go_on(tables, &target, random, 6, met);
    }
}

/// A proposal, a heap of shared records over it, one of them in hand.
pub fn heaped(random: &mut Random, rows: usize) -> Option<Tables> {
    let calls = random.below(30);
    let tables = Taught::random(random).proposing(random, calls)?;
    let mut strange = Strange::of(tables, rows);
    let heap = strange.room() - random.below(strange.room().min(40));
    strange.heap(random, heap);
    strange.take_in_hand(random);
    Some(strange.tables)
}

/// Hands that unfold to thousands of symbols and to more than could be written down, answered at random.
pub fn shared_records_in_hand(random: &mut Random, met: &mut Met) {
    let Some(mut tables) = heaped(random, 420) else {
        return;
    };
    if random.percent(50) {
        tables = shuffled(&tables, random);
    }
    tables.words.resize(random.within(420, 900) * ROW_WORDS, 3);
    for _ in 0..12 {
        every_call(&tables, random, met);
        let call = Call::Answer(random.below(2) as u8);
        if met.call(&mut tables, &call).number != 0 {
            break;
        }
    }
}
