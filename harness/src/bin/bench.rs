//! Times of bank's functions, as `crates/probe` exports them, beside the same work in Rust.
//! docs/BENCHMARKS.md says what the lines mean.

use harness::colliding::{Sort, ALL, FEW};
use harness::hashed::Hashed;
use harness::lent::{Lent, ROWS_MAX};
use harness::probe;
use harness::random::Random;
use harness::sound;
use std::hint::black_box;
use std::time::{Duration, Instant};

const RUNS: usize = 400;

fn least(runs: usize, mut call: impl FnMut()) -> Duration {
    let times = (0..runs).map(|_| time(&mut call));
    times.min().unwrap_or_default()
}

fn time(mut call: impl FnMut()) -> Duration {
    let begin = Instant::now();
    call();
    begin.elapsed()
}

/// How much longer one call takes than another: the median of differences of calls made in turn.
fn longer(mut long: impl FnMut(), mut short: impl FnMut()) -> Duration {
    let turn = |_| {
        let short = time(&mut short);
        time(&mut long).saturating_sub(short)
    };
    let mut times: Vec<Duration> = (0..RUNS).map(turn).collect();
    times.sort();
    times[RUNS / 2]
}

/// Bank's time, another's, and bank's as a part of the other's.
fn told(name: &str, bank: Duration, other: &str, time: Duration) -> String {
    let ratio = bank.as_secs_f64() / time.as_secs_f64();
    format!("{name:<44} {bank:>10.1?}   {other:<7} {time:>10.1?}   {ratio:>6.2}")
}

fn line(name: &str, bank: Duration, other: &str, time: Duration) {
    println!("{}", told(name, bank, other, time));
}

fn pass_time(runs: usize, lent: &Lent) -> Duration {
    let mut marks = vec![0; ROWS_MAX];
    assert!(probe::pass_into(
        &lent.words,
        &lent.counts,
        lent.used,
        &mut marks
    ));
    least(runs, || {
        black_box(probe::pass_into(
            &lent.words,
            &lent.counts,
            lent.used,
            &mut marks,
        ));
    })
}

/// The oracle has no call for T1 alone: looking at a run that has learnt nothing does little else.
fn look_time(lent: &Lent) -> Duration {
    let mut lists = oracle::Lists::zeroed();
    lists.letters = lent.counts.len() as u8;
    lists.counts[..lent.counts.len()].copy_from_slice(&lent.counts);
    lists.used = lent.used;
    lists.contexts = 1;
    assert_eq!(oracle::look(&lent.words, &lists).number, 0);
    least(RUNS, || {
        black_box(oracle::look(&lent.words, &lists));
    })
}

fn read_time(lent: &Lent) -> Duration {
    least(RUNS, || {
        black_box(Hashed::read(lent));
    })
}

fn pass_lines(name: &str, lent: &Lent) {
    let bank = pass_time(RUNS, lent);
    line(name, bank, "oracle", look_time(lent));
    line("", bank, "HashMap", read_time(lent));
}

/// A table of 15,000 rows and a listed record of 1,024 symbols that stands in it behind them.
fn with_long_record() -> (Lent, Vec<u8>) {
    let lent = sound::large(&mut Random::new(2), 15_000).with_rows(ROWS_MAX, 0);
    let mut symbols = vec![2u8; 1_024];
    symbols[0] = 0;
    let (reply, words) = probe::store(&lent, &symbols);
    assert_eq!(reply.code, 1);
    let (counts, used) = (lent.counts, reply.used);
    (
        Lent {
            words,
            counts,
            used,
        },
        symbols,
    )
}

/// What looking for 1,023 rows more takes, a row.
fn lookup_line() {
    let (lent, symbols) = with_long_record();
    let bank = longer(
        || _ = black_box(probe::known(&lent, &symbols)),
        || _ = black_box(probe::known(&lent, &symbols[..1])),
    );
    let read = Hashed::read(&lent).expect("a sound table");
    let top = probe::known(&lent, &symbols) as usize;
    let rows = top + 1 - 1_023..top + 1;
    let nodes: Vec<_> = rows
        .map(|row| (lent.symbol(row), lent.places(row)))
        .collect();
    let hashed = least(RUNS, || {
        for &node in &nodes {
            black_box(read.find(black_box(node)));
        }
    });
    line("a row looked up", bank / 1_023, "HashMap", hashed / 1_023);
}

/// A chain of contexts and a leaf, with all rows lent.
fn chain(length: usize) -> Lent {
    sound::chain(length).with_rows(ROWS_MAX, 0)
}

/// Filling without the pass before it. Rows that were added are past the used ones at the next run.
fn fill_line(name: &str, lent: &Lent, context: u16, with: u16) {
    let mut words = lent.words.clone();
    let mut marks = vec![0; ROWS_MAX];
    let bank = longer(
        || {
            let reply = probe::fill_in(&mut words, &lent.counts, lent.used, context, with);
            assert_eq!(reply.code, 1);
        },
        || {
            black_box(probe::pass_into(
                &lent.words,
                &lent.counts,
                lent.used,
                &mut marks,
            ));
        },
    );
    let hashed = (0..RUNS).map(|_| {
        let mut read = Hashed::read(lent).expect("a sound table");
        time(|| _ = black_box(read.fill(context as u32, with as u32)))
    });
    let hashed = hashed.min().unwrap_or_default();
    line(name, bank, "HashMap", hashed);
}

/// T1 of full tables: scattered rows, and the same made against the index, each time also as a multiple of the first.
fn sort_lines(name: &str, sorts: [Sort; 3]) {
    let mut scattered = None;
    for sort in sorts {
        let lent = sort.table(ROWS_MAX, ROWS_MAX);
        assert_eq!(lent.used as usize, ROWS_MAX);
        let bank = pass_time(RUNS, &lent);
        let name = scattered.map_or(name.to_string(), |_| format!("    {}", sort.name));
        let scattered = *scattered.get_or_insert(bank);
        let times = bank.as_secs_f64() / scattered.as_secs_f64();
        println!(
            "{}   {times:>9.2}",
            told(&name, bank, "oracle", look_time(&lent))
        );
    }
}

fn lines() {
    println!(
        "{:<44} {:>10}   {:<7} {:>10}   {:>6}   {:>9}",
        "", "bank", "against", "", "ratio", "scattered"
    );
    let full = sound::large(&mut Random::new(1), ROWS_MAX);
    pass_lines("T1 and index, 16,384 random rows", &full);
    pass_lines("T1 and index, a chain of 16,382 rows", &chain(ROWS_MAX - 2));
    lookup_line();
    fill_line(
        "a chain of 16,000 filled, all rows found",
        &chain(16_000),
        16_000,
        0,
    );
    fill_line(
        "a chain of 8,000 filled, all rows added",
        &chain(8_000),
        8_000,
        8_001,
    );
    sort_lines("T1, 16,384 rows over 4 symbols, scattered", FEW);
    sort_lines("T1, 16,384 rows over 63 symbols, scattered", ALL);
}

/// Recursion in Rust takes more stack than a main thread may have.
fn main() {
    let thread = std::thread::Builder::new()
        .stack_size(64 << 20)
        .spawn(lines);
    thread.expect("a thread").join().expect("the lines");
}
