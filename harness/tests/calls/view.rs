//! The calls about a list: what they say of lists of runs, of the longest list and of bytes that are no list.

use harness::cases::compare::Met;
use harness::cases::lists::{longest_list, proposed};
use harness::cases::view::{changed, every_part, random_limits, random_lists, some_parts};
use harness::kuldveth;
use oracle::testing::random::Random;
use oracle::testing::watch::each_case;
use oracle::{Found, ListRule, ListSizes};

fn found(value: u8) -> Found {
    Found {
        number: 0,
        found: 1,
        value,
    }
}

/// The list of the worked run (docs/SPECIFICATION.md, 9), each answer spelled.
#[test]
fn the_worked_run() {
    let bytes = [
        [2, 0, 0, 0, 1, 0, 1, 0, 2, 0, 0, 0, 2, 0, 0, 1].as_slice(),
        [2, 0, 0, 0, 3, 0, 1, 0, 3, 0, 0, 0, 3, 0, 0, 0, 1].as_slice(),
    ]
    .concat();
    let sizes = ListSizes {
        number: 0,
        symbols: 2,
        states: 2,
        rules: 2,
    };
    assert_eq!(kuldveth::list_sizes(&bytes), sizes);
    let counts = [found(1), found(0), Found::default()];
    assert_eq!(
        [0, 1, 2].map(|a| kuldveth::list_children(&bytes, a)),
        counts
    );
    let finals = [found(0), found(1), Found::default()];
    assert_eq!([0, 1, 2].map(|q| kuldveth::list_final(&bytes, q)), finals);
    let rules = [
        ListRule {
            found: 1,
            symbol: 1,
            ..ListRule::default()
        },
        ListRule {
            found: 1,
            children: 1,
            target: 1,
            ..ListRule::default()
        },
        ListRule::default(),
    ];
    assert_eq!([0, 1, 2].map(|k| kuldveth::list_rule(&bytes, k)), rules);
    assert_eq!(kuldveth::list_target(&bytes, 1, &[]), found(0));
    assert_eq!(kuldveth::list_target(&bytes, 0, &[0]), found(1));
    for states in [&[][..], &[1], &[0, 0]] {
        assert_eq!(kuldveth::list_target(&bytes, 0, states), Found::default());
    }
}

#[test]
fn lists_of_random_runs() {
    let mut met = Met::default();
    each_case(411, 0..150, |_, random| {
        if let Some(good) = proposed(random) {
            every_part(&good, random, &mut met);
        }
    });
    met.listed_at_least(100_000, [0]);
}

/// One byte changed at every place, and the list cut there.
#[test]
fn every_byte_changed() {
    let mut met = Met::default();
    each_case(412, 0..40, |_, random| {
        let Some(good) = proposed(random).filter(|bytes| bytes.len() > 60) else {
            return;
        };
        for place in 0..good.len() {
            let mut bytes = good.clone();
            for value in [0, 1, 2, 3, 4, 5, 31, 32, 255] {
                bytes[place] = value;
                some_parts(&bytes, random, &mut met);
            }
            some_parts(&good[..place], random, &mut met);
        }
    });
    met.listed_at_least(5_000, [0, 21]);
}

#[test]
fn the_longest_list() {
    let (mut met, mut random) = (Met::default(), Random::new(413));
    let longest = longest_list();
    assert_eq!(kuldveth::list_sizes(&longest).rules, 256);
    every_part(&longest, &mut random, &mut met);
    every_part(&longest[..longest.len() - 1], &mut random, &mut met);
    for _ in 0..300 {
        some_parts(&changed(&longest, &mut random), &mut random, &mut met);
    }
    met.listed_at_least(1_000, [0, 21]);
}

#[test]
fn lists_near_the_limits() {
    let mut met = Met::default();
    each_case(414, 0..30, |_, random| {
        every_part(&random_limits(random), random, &mut met);
    });
    met.listed_at_least(10_000, [0]);
}

#[test]
fn random_bytes() {
    let (mut met, mut random) = (Met::default(), Random::new(415));
    for size in [0, 1, 6, 12, 100, 1 << 16] {
        let bytes: Vec<u8> = (0..size).map(|_| random.bits() as u8).collect();
        every_part(&bytes, &mut random, &mut met);
    }
    each_case(416, 0..10, |_, random| random_lists(random, &mut met));
    met.listed_at_least(10_000, [0, 21]);
}
