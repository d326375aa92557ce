//! Random cases from a seed: `oracle-fuzz SEED CASES`. A failure, or a case that takes longer
//! than a minute, ends it with the case's name, and `oracle-fuzz SEED CASE..` runs that again.

use oracle::testing::cases::{self, Met};
use oracle::testing::checked;
use oracle::testing::random::Random;
use oracle::testing::verdicts;
use oracle::testing::watch::watch;

fn run(seed: u64, case: u64, met: &mut Met) {
    let random = &mut Random::case(seed, case);
    match case % 8 {
        0 => drop(checked::learn_random(random, 6)),
        1 => drop(checked::contradict(random)),
        2 => cases::fresh_case(random, met),
        3 => cases::damaged_case(random, met),
        4 => cases::rubbish_case(random, met),
        5 => verdicts::long_case(random, &mut met.verdicts),
        _ => cases::elsewhere_case(random, met),
    }
}

fn main() {
    let arguments: Vec<String> = std::env::args().skip(1).collect();
    let number = |text: &str| text.parse::<u64>().ok();
    let (seed, cases) = match &arguments[..] {
        [seed, cases] => match (number(seed), cases.strip_suffix("..").map(number)) {
            (Some(seed), Some(Some(case))) => (seed, case..case.saturating_add(1)),
            (Some(seed), None) => (seed, 0..number(cases).unwrap_or(0)),
            _ => (0, 0..0),
        },
        _ => (0, 0..0),
    };
    if cases.is_empty() {
        eprintln!("usage: oracle-fuzz SEED CASES, or oracle-fuzz SEED CASE..");
        std::process::exit(2);
    }
    let mut met = Met::default();
    let count = cases.end - cases.start;
    for case in cases {
        let name = format!("seed {seed} case {case}; again: oracle-fuzz {seed} {case}..");
        let _watched = watch(name.clone());
        let outcome = std::panic::catch_unwind(|| {
            let mut met = Met::default();
            run(seed, case, &mut met);
            met
        });
        match outcome {
            Ok(more) => met.add(&more),
            Err(_) => {
                eprintln!("failed: {name}");
                std::process::exit(1);
            }
        }
    }
    println!("{count} cases without a difference\n{met:?}");
}
