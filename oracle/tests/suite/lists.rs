//! Reading lists: damaged at every byte, cut, extended, too long, random.

use oracle::testing::watch::each_case;
use oracle::{automaton, load};

fn block(kind: u16, body: &[u8]) -> Vec<u8> {
    let mut bytes = (body.len() as u32).to_le_bytes().to_vec();
    bytes.extend(kind.to_le_bytes());
    bytes.extend(body);
    bytes
}

/// A list from bodies: counts, finals, rules.
fn list(counts: &[u8], finals: &[u8], rules: &[&[u8]]) -> Vec<u8> {
    let mut bytes = [block(1, counts), block(2, finals)].concat();
    rules.iter().for_each(|rule| bytes.extend(block(3, rule)));
    bytes
}

fn taken(bytes: &[u8]) -> bool {
    let loaded = load(bytes);
    assert_eq!(loaded.number == 0, automaton(bytes).is_some());
    assert!(matches!((loaded.number, loaded.size), (0, _) | (21, 0)));
    loaded.number == 0
}

/// All blocks of some bytes, each a kind and a body, or none if they do not come out even.
fn blocks(bytes: &[u8]) -> Option<Vec<(u64, &[u8])>> {
    let mut found = Vec::new();
    let mut at = 0;
    while at < bytes.len() {
        let head = bytes.get(at..at + 6)?;
        let number = |part: &[u8]| {
            part.iter()
                .rev()
                .fold(0, |sum, &byte| sum * 256 + byte as u64)
        };
        let (length, kind) = (number(&head[..4]), number(&head[4..]));
        if length > (bytes.len() - at - 6) as u64 {
            return None;
        }
        let end = at + 6 + length as usize;
        found.push((kind, &bytes[at + 6..end]));
        at = end;
    }
    Some(found)
}

/// Another reader of the form: every block found first, then checked one by one.
fn well_formed(bytes: &[u8]) -> bool {
    let blocks = blocks(bytes).unwrap_or_default();
    let [(1, counts), (2, finals), rules @ ..] = &blocks[..] else {
        return false;
    };
    let states = finals.len();
    let fits = |&(kind, body): &(u64, &[u8])| {
        kind == 3
            && body.len() >= 2
            && (body[0] as usize) < counts.len()
            && body.len() == 2 + counts[body[0] as usize] as usize
            && body[1..].iter().all(|&state| (state as usize) < states)
    };
    (1..=64).contains(&counts.len())
        && counts.iter().all(|&count| count <= 4)
        && states <= 32
        && finals.iter().all(|&last| last <= 1)
        && rules.len() <= 256
        && rules.iter().all(fits)
        && rules.iter().enumerate().all(|(place, (_, one))| {
            let left = &one[..one.len() - 1];
            let mut earlier = rules[..place].iter();
            earlier.all(|(_, other)| left != &other[..other.len() - 1])
        })
}

fn check(bytes: &[u8]) {
    assert_eq!(taken(bytes), well_formed(bytes), "{bytes:?}");
}

fn example() -> Vec<u8> {
    list(
        &[1, 0, 2],
        &[0, 1],
        &[&[1, 0], &[0, 0, 1], &[2, 0, 1, 1], &[2, 1, 0, 1]],
    )
}

#[test]
fn every_byte_damaged() {
    let good = example();
    assert!(taken(&good));
    for place in 0..good.len() {
        for value in 0..=255 {
            let mut bytes = good.clone();
            bytes[place] = value;
            check(&bytes);
        }
    }
}

#[test]
fn cut_and_extended() {
    let good = example();
    for end in 0..good.len() {
        check(&good[..end]);
    }
    for extra in 0..=255 {
        assert!(!taken(&[&good[..], &[extra]].concat()));
    }
    assert!(taken(&[&good[..], &block(3, &[2, 0, 0, 0])].concat()));
    assert!(
        !taken(&[&good[..], &block(3, &[2, 0, 1, 0])].concat()),
        "left side twice"
    );
    assert!(!taken(&[&good[..], &good[..]].concat()));
    for (place, _) in good.iter().enumerate() {
        check(&[&good[..place], &good[place + 1..]].concat());
        check(&[&good[..place], &[0], &good[place..]].concat());
    }
}

#[test]
fn limits_of_the_form() {
    assert!(taken(&list(&[0], &[], &[])), "0 states and 0 rules");
    assert!(!taken(&list(&[], &[], &[])), "an empty alphabet");
    assert!(taken(&list(&[4; 64], &[1; 32], &[])));
    assert!(!taken(&list(&[0; 65], &[], &[])));
    assert!(!taken(&list(&[5], &[], &[])));
    assert!(!taken(&list(&[0], &[0; 33], &[])));
    assert!(!taken(&list(&[0], &[2], &[])));
    assert!(
        !taken(&list(&[0], &[], &[&[0, 0]])),
        "a rule without states"
    );
    let body = |number: u16| [0, (number / 32) as u8, (number % 32) as u8, 0];
    let bodies: Vec<[u8; 4]> = (0..=256).map(body).collect();
    let rules: Vec<&[u8]> = bodies.iter().map(|body| &body[..]).collect();
    assert!(taken(&list(&[2], &[0; 32], &rules[..256])));
    assert!(!taken(&list(&[2], &[0; 32], &rules[..257])), "257 rules");
    let mut long = example();
    long[..4].copy_from_slice(&[0xFF; 4]);
    assert!(!taken(&long), "a body of 4 GB");
    assert!(!taken(&[]));
}

#[test]
fn random_bytes() {
    let good = example();
    each_case(31, 0..100_000, |_, random| {
        let size = random.below(40);
        let bytes: Vec<u8> = (0..size).map(|_| random.below(5) as u8).collect();
        check(&bytes);
        let mut bytes = good.clone();
        for _ in 0..random.within(1, 3) {
            let place = random.below(bytes.len());
            bytes[place] = random.below(6) as u8;
        }
        check(&bytes);
    });
}
