//! Times of looking at full tables, library and oracle in turn. docs/BENCHMARKS.md says what the
//! lines mean.

use harness::colliding::{Sort, ALL, FEW};
use harness::crowded::Crowded;
use harness::flat;
use harness::kuldveth;
use oracle::limits::ROWS_MAX;
use oracle::testing::big;
use oracle::testing::compare::Tables;
use std::hint::black_box;
use std::time::{Duration, Instant};

const RUNS: usize = 100;
/// These looks take long.
const FLAT_RUNS: usize = 10;

fn time(call: impl FnOnce()) -> Duration {
    let begin = Instant::now();
    call();
    begin.elapsed()
}

/// The least times of the library and of the oracle, called in turn.
fn times(runs: usize, tables: &Tables) -> (Duration, Duration) {
    let Tables { words, lists } = tables;
    let seen = kuldveth::look(words, lists);
    assert_eq!((seen.number, seen), (0, oracle::look(words, lists)));
    let mut least = (Duration::MAX, Duration::MAX);
    for _ in 0..runs {
        let library = time(|| _ = black_box(kuldveth::look(words, lists)));
        let oracle = time(|| _ = black_box(oracle::look(words, lists)));
        least = (least.0.min(library), least.1.min(oracle));
    }
    least
}

fn ratio(one: Duration, other: Duration) -> f64 {
    one.as_secs_f64() / other.as_secs_f64()
}

/// One line: both times and their ratio.
fn told(name: &str, library: Duration, oracle: Duration) -> String {
    let ratio = ratio(library, oracle);
    format!("{name:<50} {library:>10.1?} {oracle:>10.1?} {ratio:>8.2}")
}

fn line(name: &str, tables: &Tables) {
    let (library, oracle) = times(RUNS, tables);
    println!("{}", told(name, library, oracle));
}

/// Tables filled with scattered records, and with such as are made against the index, each time also as a multiple of the first.
fn sort_lines(name: &str, sorts: [Sort; 3], crowded: impl Fn() -> Crowded) {
    let mut scattered = None;
    for sort in sorts {
        let (library, oracle) = times(RUNS, &crowded().filled(sort.aim));
        let name = scattered.map_or(name.to_string(), |_| format!("    {}", sort.name));
        let scattered = *scattered.get_or_insert(library);
        let times = ratio(library, scattered);
        println!("{} {times:>10.2}", told(&name, library, oracle));
    }
}

/// Contexts beside C, scattered and against the index.
fn flat_lines() {
    let (scattered, oracle) = times(FLAT_RUNS, &flat::scattered());
    println!(
        "{}",
        told("2, 256, 2; 7,400 flat contexts beside C", scattered, oracle)
    );
    let (library, oracle) = times(FLAT_RUNS, &flat::against());
    let times = ratio(library, scattered);
    println!(
        "{} {times:>10.2}",
        told("    against the trees", library, oracle)
    );
}

/// The tables that are filled: few symbols, and as many as there are.
fn collided_lines() {
    let few = |tables: Tables| Crowded::over(tables, 4, ROWS_MAX);
    sort_lines("32, 256, 289; 8,000 rows more", FEW, || {
        few(big::widest(4_000, 8_000))
    });
    sort_lines("32, 256, 41; 7,127 rows more", FEW, || {
        few(big::proposing(40))
    });
    sort_lines("32, 33, 65; 8,350 rows more", FEW, || {
        few(big::spine(4_000))
    });
    sort_lines("0, 0, 1; 16,363 rows over 4 symbols", FEW, || {
        Crowded::over_leaves(20, 4, ROWS_MAX)
    });
    sort_lines("0, 0, 1; 16,382 rows over 63 symbols", ALL, || {
        Crowded::over_leaves(1, 63, ROWS_MAX)
    });
    sort_lines("0, 0, 1; 1,022 rows over 63 symbols", ALL, || {
        Crowded::over_leaves(1, 63, 1_024)
    });
}

/// Full tables of every kind, each with the lengths of S, T and C.
fn full_tables() -> [(&'static str, Tables); 12] {
    let spine = big::spine(big::SPINE_MAX);
    let deep = big::deep_context(8_189);
    [
        ("32, 256, 288; spine of 8,000; asking", big::full(8_000, 0)),
        (
            "32, 256, 289; spine of 8,000; asking",
            big::widest(8_000, 0),
        ),
        (
            "32, 256, 289; spine of 12,000; asking",
            big::widest(12_000, 0),
        ),
        (
            "32, 256, 289; spine of 15,000; asking",
            big::widest(15_000, 0),
        ),
        ("32, 256, 72; 16,232 rows; proposing", big::proposing(71)),
        ("32, 33, 65; spine of 8,175; proposing", spine),
        ("1, 2, 2; spine of 8,189; proposing", deep),
        ("1, 2, 1; chain of 16,000 in hand", big::exchanges(16_000)),
        ("1, 3, 1; 2^16,378 leaves in hand", big::doubling(16_378)),
        ("2, 256, 2; 15,872 deep contexts beside C", big::beside()),
        (
            "2, 256, 2; 15,872 flat contexts beside C",
            big::beside_flat(),
        ),
        (
            "2, 256, 3; spine of 15,872 not filled; asking",
            big::unfilled(),
        ),
    ]
}

fn main() {
    let (library, oracle, ratio, scattered) = ("library", "oracle", "ratio", "scattered");
    println!(
        "{:<50} {library:>10} {oracle:>10} {ratio:>8} {scattered:>10}",
        ""
    );
    for (name, tables) in full_tables() {
        line(name, &tables);
    }
    collided_lines();
    flat_lines();
}
