//! T1 and the places of holes: sound tables, one field damaged, garbage, extreme sizes.

use crate::compare;
use harness::lent::{Lent, HOLE_WORDS, ROWS_MAX, ROW_WORDS};
use harness::probe;
use harness::random::{each_case, Random};
use harness::sound;

#[test]
fn sound_tables() {
    each_case(1, 0..4_000, |_, random| {
        let lent = sound::table(random, 60, 4);
        assert!(compare::pass(&lent), "{lent:?}");
    });
}

#[test]
fn marks_without_room() {
    each_case(2, 0..500, |_, random| {
        let lent = sound::table(random, 30, 4);
        let room = random.below(lent.used as usize + 1);
        let mut marks = vec![7; room];
        let passed = probe::pass_into(&lent.words, &lent.counts, lent.used, &mut marks);
        assert!(passed, "{lent:?}");
    });
}

/// Values near what a field holds, near the limits, and such as differ only above 16 bits.
fn replacements(lent: &Lent, word: u32, row: u32) -> Vec<u32> {
    let used = lent.used as u32;
    let letters = lent.counts.len() as u32;
    let around = [word ^ 1, word.wrapping_sub(1), word.wrapping_add(1)];
    let limits = [0, 1, 2, 3, 4, 255, 16_383, 16_384, 65_535, u32::MAX];
    let own = [
        row - row.min(1),
        row,
        row + 1,
        used - 1,
        used,
        letters - 1,
        letters,
    ];
    let high = [word + (1 << 16), word + (1 << 31), word ^ (1 << 8)];
    [&around[..], &limits, &own, &high].concat()
}

#[test]
fn every_field_damaged() {
    let mut still_sound = 0;
    each_case(3, 0..150, |_, random| {
        let sound = sound::table(random, 14, 2);
        for at in 0..ROW_WORDS * sound.used as usize {
            let row = (at / ROW_WORDS) as u32;
            for value in replacements(&sound, sound.words[at], row) {
                let mut damaged = sound.clone();
                damaged.words[at] = value;
                still_sound += usize::from(compare::pass(&damaged));
            }
        }
    });
    assert!(10_000 < still_sound, "{still_sound}");
}

#[test]
fn alphabet_damaged() {
    each_case(4, 0..400, |_, random| {
        let sound = sound::table(random, 14, 2);
        for symbol in 0..sound.counts.len() {
            for count in [0, 1, 2, 3, 4, 5, 6, 127, 128, 255] {
                let mut damaged = sound.clone();
                damaged.counts[symbol] = count;
                compare::pass(&damaged);
            }
        }
        for letters in [0, 1, 2, 63, 64, 65, 66, 255, 256, 300] {
            let mut damaged = sound.clone();
            damaged.counts.resize(letters, 1);
            compare::pass(&damaged);
        }
    });
}

#[test]
fn used_damaged() {
    each_case(5, 0..400, |_, random| {
        let sound = sound::table(random, 14, 3);
        for used in (0..20).chain([255, 256, 16_383, 16_384, 16_385, 32_768, 65_535]) {
            let mut damaged = sound.clone();
            damaged.used = used;
            compare::pass(&damaged);
        }
    });
}

/// Words that are mostly small, in whole rows and behind a right row 0 most of the time.
#[test]
fn garbage() {
    let mut passed = 0;
    each_case(6, 0..60_000, |_, random| {
        let rows = random.below(7);
        let size = rows * ROW_WORDS + random.pick(&[0, 0, 0, 1, 5]);
        let mut words: Vec<u32> = (0..size).map(|_| small(random)).collect();
        if random.percent(75) {
            words.splice(..size.min(ROW_WORDS), HOLE_WORDS);
        }
        let counts = sound::alphabet(random);
        let used = random.below(8) as u16;
        passed += usize::from(compare::pass(&Lent {
            words,
            counts,
            used,
        }));
    });
    assert!(3_000 < passed, "{passed}");
}

fn small(random: &mut Random) -> u32 {
    match random.below(20) {
        0 => random.bits() as u32,
        1 => random.below(256) as u32,
        _ => random.below(3) as u32,
    }
}

#[test]
fn extreme_sizes() {
    let full = ROWS_MAX * ROW_WORDS;
    let sizes = [
        0,
        1,
        5,
        6,
        7,
        11,
        12,
        13,
        full - 6,
        full - 1,
        full,
        full + 1,
        full + 6,
        2 * full,
    ];
    for size in sizes {
        for filler in [0, 255, u32::MAX] {
            for used in [0, 1, 2, 16_383, 16_384, 16_385, 65_535] {
                let mut words = HOLE_WORDS.to_vec();
                words.resize(size, filler);
                let counts = vec![0, 1];
                compare::pass(&Lent {
                    words,
                    counts,
                    used,
                });
            }
        }
    }
}

#[test]
fn full_size() {
    each_case(7, 0..4, |_, random| {
        let full = sound::large(random, ROWS_MAX);
        assert!(compare::pass(&full));
        for used in [16_383, 16_385, 0] {
            let mut damaged = full.clone();
            damaged.used = used;
            compare::pass(&damaged);
        }
        for _ in 0..60 {
            let mut damaged = full.clone();
            let at = random.below(damaged.words.len());
            let row = (at / ROW_WORDS) as u32;
            let values = replacements(&full, full.words[at], row);
            damaged.words[at] = random.pick(&values);
            compare::pass(&damaged);
        }
    });
}

/// A twin of any earlier row, at the end of a full table.
#[test]
fn far_twins() {
    let mut random = Random::new(8);
    let full = sound::large(&mut random, ROWS_MAX);
    for _ in 0..60 {
        let mut twin = full.clone();
        let row = 1 + random.below(ROWS_MAX - 2);
        let words = full.row(row).to_vec();
        let last = ROW_WORDS * (ROWS_MAX - 1);
        twin.words[last..].copy_from_slice(&words);
        assert!(!compare::pass(&twin), "row {row}");
    }
}
