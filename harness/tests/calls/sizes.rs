//! Sizes at and past every end: of the words, the symbols, the alphabet; every mark.

use harness::cases::compare::Met;
use harness::teaching::started;
use oracle::testing::compare::{Call, Tables};
use oracle::testing::random::Random;
use oracle::Lists;

const MARKS: [u8; 4] = [0, 1, 2, 255];
const WORDS: [usize; 14] = [
    0, 1, 5, 6, 7, 12, 13, 98_298, 98_303, 98_304, 98_305, 98_309, 98_310, 196_608,
];

fn fits(size: usize) -> bool {
    size % 6 == 0 && (6..=98_304).contains(&size)
}

/// Every count of words and of symbols in the alphabet, over rubbish.
#[test]
fn starts() {
    let (mut met, mut random) = (Met::default(), Random::new(241));
    for size in WORDS {
        for letters in [0, 1, 2, 63, 64, 65, 66, 255, 256, 1_000] {
            for most in [0, 4, 5, 255] {
                let mut counts: Vec<u8> = (0..letters).map(|_| random.below(5) as u8).collect();
                if let Some(last) = counts.last_mut() {
                    *last = most;
                }
                let words = (0..size).map(|_| random.bits() as u32).collect();
                let mut lists = Lists::zeroed();
                lists.counts.fill(3);
                lists.s.fill_with(|| random.bits() as u16);
                lists.t.fill_with(|| random.bits() as u16);
                lists.c.fill_with(|| random.bits() as u16);
                (lists.states, lists.rules, lists.contexts) = (65_535, 65_535, 65_535);
                let number = match (fits(size), (1..=64).contains(&letters) && most <= 4) {
                    (false, _) => 18,
                    (_, false) => 17,
                    _ => 0,
                };
                let tables = Tables { words, lists };
                let seen = met.try_call(&tables, &Call::Start(counts));
                assert_eq!(seen.number, number, "{size} words, {letters} letters");
            }
        }
    }
}

/// A chain of so many symbols, or leaves only, or a symbol that is not there.
fn records(length: usize) -> [Vec<u8>; 4] {
    let mut chain = vec![0; length];
    chain.iter_mut().take(1).for_each(|symbol| *symbol = 1);
    [chain, vec![0; length], vec![1; length], vec![255; length]]
}

#[test]
fn symbols_and_marks() {
    let mut met = Met::default();
    let fresh = started(&[1, 0], 16_384);
    for length in [0, 1, 2, 1_023, 1_024, 1_025, 1_026, 65_535, 65_536, 70_000] {
        for record in records(length) {
            for mark in MARKS {
                met.try_call(&fresh, &Call::Offer(record.clone(), mark));
            }
        }
    }
    met.at_least(4, [0, 11, 12, 13, 14, 15, 16, 32]);
}

/// Every call over every count of words, the lists as a start left them and as nothing leaves them.
#[test]
fn words_lent() {
    let mut met = Met::default();
    let fresh = started(&[1, 0], 1);
    let mut largest = Lists::zeroed();
    (largest.letters, largest.states, largest.accepted) = (255, 255, 255);
    (largest.used, largest.rules, largest.contexts) = (65_535, 65_535, 65_535);
    (largest.hand, largest.asked) = (65_535, 65_535);
    for size in WORDS {
        for lists in [&fresh.lists, &largest, &Lists::zeroed()] {
            let mut words = fresh.words.clone();
            words.resize(size, 7);
            let tables = Tables {
                words,
                lists: lists.clone(),
            };
            for mark in MARKS {
                for record in [vec![], vec![1], vec![1, 0], vec![1; 70_000]] {
                    met.try_call(&tables, &Call::Offer(record, mark));
                }
                met.try_call(&tables, &Call::Answer(mark));
            }
            met.try_call(&tables, &Call::Accept);
        }
    }
    met.at_least(9, [0, 11, 12, 18, 30, 31]);
}

/// Answers with every mark to an open question.
#[test]
fn every_mark() {
    let mut met = Met::default();
    let mut tables = started(&[1, 0], 9);
    met.call(&mut tables, &Call::Offer(vec![1, 0], 1));
    for mark in 0..=255 {
        let seen = met.try_call(&tables, &Call::Answer(mark));
        assert_eq!(seen.number, if mark > 1 { 16 } else { 0 });
    }
}
