//! Times of whole learning runs, of single calls on full tables, of verdicts, emitting, loading and the calls about a list,
//! library and oracle in turn.
//! docs/BENCHMARKS.md says what the lines mean.

use harness::calls::{call, oracle_call};
use harness::cases::lists::longest_list;
use harness::colliding::{Sort, FEW};
use harness::crowded::Crowded;
use harness::kuldveth;
use harness::learning::{learning, runs};
use harness::teaching::started;
use oracle::limits::ROWS_MAX;
use oracle::testing::big;
use oracle::testing::compare::{Call, Tables};
use oracle::{Lists, Seen, View, ACCEPTS};
use std::fmt::Debug;
use std::time::{Duration, Instant};

const RUNS: usize = 60;
const AUTOMATA: usize = 12;

/// How often a learning run is made: the short ones often, since their times scatter.
fn repeats(states: usize) -> usize {
    if states <= 16 {
        RUNS
    } else {
        5
    }
}

type Calls = fn(&mut [u32], &mut Lists, &Call) -> Seen;

fn told(name: &str, library: Duration, oracle: Duration) -> String {
    let ratio = library.as_secs_f64() / oracle.as_secs_f64();
    format!("{name:<50} {library:>10.1?} {oracle:>10.1?} {ratio:>8.2}")
}

fn line(name: &str, library: Duration, oracle: Duration) {
    println!("{}", told(name, library, oracle));
}

/// The time that calls take one after the other, without the copies that they are made on.
fn time(tables: &Tables, made: &[Call], calls: Calls) -> (Duration, Tables) {
    let Tables {
        mut words,
        mut lists,
    } = tables.clone();
    let begin = Instant::now();
    for one in made {
        calls(&mut words, &mut lists, one);
    }
    let time = begin.elapsed();
    (time, Tables { words, lists })
}

/// The least times of the library and of the oracle, which leave the same.
fn least(runs: usize, tables: &Tables, made: &[Call]) -> (Duration, Duration) {
    let mut least = (Duration::MAX, Duration::MAX);
    for _ in 0..runs {
        let (library, left) = time(tables, made, call);
        let (oracle, expected) = time(tables, made, oracle_call);
        assert!(left == expected, "library and oracle differ");
        least = (least.0.min(library), least.1.min(oracle));
    }
    least
}

/// A run that learns so many states, at the first seed that has one.
fn run_line(states: usize, rows: usize) {
    let (begin, made, left) = learning(states, rows);
    let (library, oracle) = least(repeats(states), &begin, &made);
    let lists = &left.lists;
    let name = format!(
        "run: {states}, {}, {}; {} calls, {} rows",
        lists.rules,
        lists.contexts,
        made.len(),
        lists.used
    );
    line(&name, library, oracle);
}

/// Runs that learn so many states, together, and the largest ratio of one.
fn runs_line(states: usize, rows: usize) {
    let (mut library, mut oracle, mut most) = (Duration::ZERO, Duration::ZERO, 0f64);
    let found: Vec<_> = runs(states, rows).take(AUTOMATA).collect();
    assert_eq!(found.len(), AUTOMATA, "too few runs learn {states} states");
    for (begin, made, _) in found {
        let least = least(repeats(states), &begin, &made);
        most = most.max(least.0.as_secs_f64() / least.1.as_secs_f64());
        library += least.0;
        oracle += least.1;
    }
    let name = format!("    {AUTOMATA} automata; ratio of one at most {most:.2}");
    line(&name, library, oracle);
}

fn call_line(name: &str, tables: &Tables, made: Call) {
    let (library, oracle) = least(RUNS, tables, &[made]);
    line(name, library, oracle);
}

/// p under so many links, for tables of a leaf and links.
fn chain(leaf: u8, link: u8, length: usize) -> Vec<u8> {
    let mut symbols = vec![link; length];
    symbols[0] = leaf;
    symbols
}

/// A run that proposes after an offer of the longest chain: each of its parts is stored, and not accepted.
fn chain_stored() -> Tables {
    let mut tables = started(&[1, 0], ROWS_MAX);
    let Tables { words, lists } = &mut tables;
    let seen = oracle::offer(words, lists, &chain(1, 0, 1_024), 1);
    assert_eq!((seen.number, seen.row), (0, 1));
    assert_eq!(oracle::answer(words, lists, 0).number, 0);
    tables
}

fn call_lines() {
    let full = big::full(7_700, 7_800);
    call_line("answer: 7,700 rows added", &full, Call::Answer(1));
    let no_room = big::full(8_000, 0);
    call_line("answer: no row left, 34", &no_room, Call::Answer(1));
    let proposing = big::proposing(66);
    let long = [chain(0, 1, 1_022), vec![8, 8]].concat();
    call_line(
        "offer of 1,024 symbols on 32, 256, 67",
        &proposing,
        Call::Offer(long.clone(), 1),
    );
    call_line(
        "offer of 1,024 symbols, 32",
        &proposing,
        Call::Offer(long, 0),
    );
    call_line("acceptance on 32, 256, 67", &proposing, Call::Accept);
    call_line(
        "offer of 1,023 stored symbols, 32",
        &chain_stored(),
        Call::Offer(chain(1, 0, 1_023), 0),
    );
    let offer = Call::Offer(chain(1, 0, 1_024), 0);
    let deep = big::deep_context(7_000);
    call_line("offer of 1,024 symbols, a context of 7,000", &deep, offer);
    let exchanges = big::exchanges(16_000);
    call_line("answer: 15,998 exchanges", &exchanges, Call::Answer(0));
    let doubling = big::doubling(8_000);
    call_line("answer: 2^8,000 leaves in hand", &doubling, Call::Answer(1));
    let started = started(&[1, 0], ROWS_MAX);
    call_line("start", &started, Call::Start(vec![1, 0]));
}

/// The same offer on tables with rows more, scattered or made against the index, each time also as a multiple of the first.
fn sort_lines(name: &str, sorts: [Sort; 3], rows: usize, crowded: impl Fn() -> Crowded) {
    let mut scattered = None;
    for sort in sorts {
        let mut crowded = crowded();
        crowded.add(sort.aim, rows);
        let tables = crowded.strange.tables;
        let node = tables.lists.letters - 1;
        let offer = Call::Offer(vec![0, 0, 0, 0, node], 1);
        let (library, oracle) = least(RUNS, &tables, &[offer]);
        let name = scattered.map_or(name.to_string(), |_| format!("    {}", sort.name));
        let scattered = *scattered.get_or_insert(library);
        let times = library.as_secs_f64() / scattered.as_secs_f64();
        println!("{} {times:>10.2}", told(&name, library, oracle));
    }
}

fn collided_lines() {
    sort_lines("offer on 32, 33, 65; 7,000 rows more", FEW, 7_000, || {
        Crowded::over(big::spine(4_000), 4, ROWS_MAX)
    });
    sort_lines("offer on 0, 0, 1; 16,000 rows", FEW, 16_000, || {
        Crowded::over_leaves(20, 4, ROWS_MAX)
    });
}

/// One line of calls that return the same by both.
fn same_line<T: PartialEq + Debug>(
    name: &str,
    mut library: impl FnMut() -> T,
    mut oracle: impl FnMut() -> T,
) {
    let mut least = (Duration::MAX, Duration::MAX);
    for _ in 0..RUNS {
        let begin = Instant::now();
        let found = library();
        let middle = Instant::now();
        let expected = oracle();
        let end = Instant::now();
        assert_eq!(found, expected, "library and oracle differ");
        least = (least.0.min(middle - begin), least.1.min(end - middle));
    }
    line(name, least.0, least.1);
}

/// One line of a verdict on a record that is accepted, so that every symbol of it finds a rule.
fn verdict_line(name: &str, Tables { words, lists }: &Tables, symbols: &[u8]) {
    assert_eq!(oracle::verdict(words, lists, symbols).outcome, ACCEPTS);
    same_line(
        name,
        || kuldveth::verdict(words, lists, symbols),
        || oracle::verdict(words, lists, symbols),
    );
}

fn verdict_lines() {
    let longest = [chain(0, 1, 1_023), vec![8]].concat();
    let proposing = big::proposing(66);
    verdict_line(
        "verdict of 1,024 symbols on 32, 256, 67",
        &proposing,
        &longest,
    );
    let mut worked = started(&[1, 0], 5);
    let Tables { words, lists } = &mut worked;
    for _ in 0..2 {
        oracle::offer(words, lists, &[1, 0], 1);
        oracle::answer(words, lists, 0);
    }
    verdict_line("verdict of 2 symbols on 2, 2, 2", &worked, &[1, 0]);
}

fn list_lines() {
    let Tables { words, lists } = big::proposing(66);
    let (mut found, mut expected) = (vec![0; 4_096], vec![0; 4_096]);
    same_line(
        "emitting 32, 256, 67",
        || kuldveth::emit(&words, &lists, &mut found),
        || oracle::emit(&words, &lists, &mut expected),
    );
    assert!(found == expected, "library and oracle differ");
    let size = oracle::emit(&words, &lists, &mut expected).size;
    let mut list = found;
    list.truncate(size as usize);
    let load_line = |name: &str, bytes: &[u8], number: u32| {
        assert_eq!(oracle::load(bytes).number, number);
        same_line(name, || kuldveth::load(bytes), || oracle::load(bytes));
    };
    load_line("loading what it wrote", &list, 0);
    let longest = longest_list();
    load_line("loading 256 rules of four children", &longest, 0);
    let cut = &longest[..longest.len() - 1];
    load_line("loading the same cut in its last rule, 21", cut, 21);
    same_line(
        "its last rule",
        || kuldveth::list_rule(&longest, 255),
        || View::of(&longest).rule(255),
    );
    same_line(
        "the target of its last rule",
        || kuldveth::list_target(&longest, 0, &[0, 0, 7, 31]),
        || View::of(&longest).target(0, &[0, 0, 7, 31]),
    );
}

fn main() {
    println!(
        "{:<50} {:>10} {:>10} {:>8} {:>10}",
        "", "library", "oracle", "ratio", "scattered"
    );
    for states in [8, 12, 16, 20, 24, 28, 32] {
        run_line(states, ROWS_MAX);
        runs_line(states, ROWS_MAX);
    }
    call_lines();
    verdict_lines();
    collided_lines();
    list_lines();
}
