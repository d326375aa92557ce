//! Prints the time of single calls on large tables: the least of several runs.

use oracle::testing::big;
use oracle::testing::compare::{fast, Call, Tables};
use std::time::{Duration, Instant};

const RUNS: usize = 30;

fn least_time(mut call: impl FnMut()) -> Duration {
    let times = (0..RUNS).map(|_| {
        let begin = Instant::now();
        call();
        begin.elapsed()
    });
    times.min().unwrap_or_default()
}

/// The time of looking, which checks soundness and no more.
fn look_time(name: &str, tables: &Tables) {
    let seen = oracle::look(&tables.words, &tables.lists);
    let time = least_time(|| {
        std::hint::black_box(oracle::look(&tables.words, &tables.lists));
    });
    println!("look    {name:<42} {time:>12.2?}   {seen:?}");
}

/// The time of another call, tables copied for each run.
fn call_time(name: &str, tables: &Tables, call: Call) {
    let seen = fast(tables, &call).seen;
    let time = least_time(|| {
        std::hint::black_box(fast(tables, &call));
    });
    println!("call    {name:<42} {time:>12.2?}   {seen:?}");
}

/// The time of a verdict on a record.
fn verdict_time(name: &str, tables: &Tables, symbols: &[u8]) {
    let judged = oracle::verdict(&tables.words, &tables.lists, symbols);
    let time = least_time(|| {
        std::hint::black_box(oracle::verdict(&tables.words, &tables.lists, symbols));
    });
    println!("verdict {name:<42} {time:>12.2?}   {judged:?}");
}

fn main() {
    let full = big::full(8_000, 0);
    look_time("full: 32 states, 256 rules, 288 contexts", &full);
    let full = big::full(7_700, 7_800);
    call_time("full: answer that adds 7,700 rows", &full, Call::Answer(1));
    let proposing = big::proposing(66);
    look_time("proposing: 32 states, 256 rules", &proposing);
    let mut long = vec![0u8];
    long.resize(1_022, 1);
    long.extend([8, 8]);
    verdict_time("proposing: on 1,024 symbols", &proposing, &long);
    call_time(
        "proposing: offer of 1,024 symbols",
        &proposing,
        Call::Offer(long, 1),
    );
    let exchanges = big::exchanges(16_000);
    look_time("exchanges: 16,000 links in hand", &exchanges);
    call_time(
        "exchanges: answer, 15,998 exchanges",
        &exchanges,
        Call::Answer(0),
    );
    let doubling = big::doubling(60);
    look_time("doubling: 2^60 leaves in hand", &doubling);
    call_time("doubling: answer", &doubling, Call::Answer(1));
    look_time("deep context: 8,000 rows", &big::deep_context(8_000));
}
