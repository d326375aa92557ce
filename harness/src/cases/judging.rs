//! Verdicts in random runs: as they are found over trees and by the emitted list, and after offers that got 32.

use super::compare::Met;
use crate::asked;
use crate::teacher::Taught;
use crate::teaching::proposal;
use oracle::limits::RECORD_MAX;
use oracle::testing::compare::{Call, Tables};
use oracle::testing::damage::unfolds_small;
use oracle::testing::likely;
use oracle::testing::naive;
use oracle::testing::random::Random;
use oracle::testing::verdicts::by_list;
use oracle::{Seen, ACCEPTS};

/// The proposal of a random run, accepted or not: verdicts as they are found over trees, and as the emitted list has them.
pub fn over_trees(random: &mut Random, met: &mut Met) {
    let calls = random.below(24);
    let found = Taught::random(random).proposing(random, calls);
    let Some(mut tables) = found.filter(unfolds_small) else {
        return;
    };
    tables.lists.accepted = random.percent(20) as u8;
    let proposed = proposal(&tables);
    for turn in 0..6 {
        let most = *random.pick(&[12, 60, RECORD_MAX]);
        let symbols = match turn {
            0 | 1 => asked::any(&tables, random),
            2 | 3 => asked::stored_or_over(&tables, random).unwrap_or_default(),
            _ => likely::record(&proposed, random, most),
        };
        let told = met.verdict(&tables, &symbols);
        let trees = naive::verdict(&tables.words, &tables.lists, &symbols);
        assert_eq!(told, trees, "{symbols:?} on\n{tables:?}");
        let listed = (told.number == 0).then(|| by_list(&proposed, &symbols));
        assert_eq!(told, listed.unwrap_or(told), "{symbols:?} on\n{tables:?}");
    }
}

/// Makes a call. Where an offer gets 32, nothing has changed, and the verdict on its record is what the mark says.
pub fn call_and_judge(tables: &mut Tables, call: &Call, met: &mut Met) -> Seen {
    let before = tables.clone();
    let seen = met.call(tables, call);
    if let (32, Call::Offer(symbols, mark)) = (seen.number, call) {
        assert!(*tables == before, "{call:?} changed\n{before:?}");
        let told = met.verdict(tables, symbols);
        let same = (told.outcome == ACCEPTS) == (*mark == 1);
        assert!(told.number == 0 && same, "{told:?} after {call:?}");
    }
    seen
}
