//! A case may take a minute. One that takes longer ends the program, with its name on standard error.

use super::random::Random;
use std::io::{stderr, Write};
use std::ops::Range;
use std::process::exit;
use std::sync::{Mutex, MutexGuard, Once, PoisonError};
use std::thread;
use std::time::{Duration, Instant};

/// The seconds that a case may take, unless CASE_SECONDS names another number.
const SECONDS: u64 = 60;
const BETWEEN_LOOKS: Duration = Duration::from_millis(200);

struct Running {
    number: u64,
    begin: Instant,
    name: String,
}

/// The cases that run now, and how many began before.
struct Cases {
    begun: u64,
    running: Vec<Running>,
}

static CASES: Mutex<Cases> = Mutex::new(Cases {
    begun: 0,
    running: Vec::new(),
});
static WATCH: Once = Once::new();

fn cases() -> MutexGuard<'static, Cases> {
    CASES.lock().unwrap_or_else(PoisonError::into_inner)
}

fn number(variable: &str) -> Option<u64> {
    std::env::var(variable).ok()?.parse().ok()
}

/// A running case. It is over when this is dropped; one that panics is named.
pub struct Watched(u64);

/// Watches a case from now on.
pub fn watch(name: String) -> Watched {
    WATCH.call_once(|| drop(thread::spawn(look)));
    let mut cases = cases();
    cases.begun += 1;
    let number = cases.begun;
    let begin = Instant::now();
    cases.running.push(Running {
        number,
        begin,
        name,
    });
    Watched(number)
}

impl Drop for Watched {
    fn drop(&mut self) {
        let mut cases = cases();
        let place = cases.running.iter().position(|case| case.number == self.0);
        let ended = place.map(|place| cases.running.swap_remove(place));
        if let Some(ended) = ended.filter(|_| thread::panicking()) {
            eprintln!("failed: {}", ended.name);
        }
    }
}

/// Looks at the running cases, as long as the program runs.
fn look() {
    let seconds = number("CASE_SECONDS").unwrap_or(SECONDS);
    loop {
        thread::sleep(BETWEEN_LOOKS);
        let cases = cases();
        let late = |case: &&Running| case.begin.elapsed() > Duration::from_secs(seconds);
        if let Some(case) = cases.running.iter().find(late) {
            // Not `eprintln!`, whose lines a test keeps back.
            _ = writeln!(stderr(), "longer than {seconds} s: {}", case.name);
            exit(1);
        }
    }
}

/// Runs the cases of a test, each from the seed and its number and each watched; only one of them if CASE names it.
pub fn each_case(seed: u64, cases: Range<u64>, mut run: impl FnMut(u64, &mut Random)) {
    let alone = number("CASE").map(|case| case..case.saturating_add(1));
    let thread = thread::current();
    let test = thread.name().unwrap_or("main");
    for case in alone.unwrap_or(cases) {
        let again = format!("CASE={case} cargo test {test}");
        let _watched = watch(format!("seed {seed} case {case}; again: {again}"));
        run(case, &mut Random::case(seed, case));
    }
}
