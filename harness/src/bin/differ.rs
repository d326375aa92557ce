//! Library against oracle, for hours: `differ SEED MINUTES`. A difference, a crash or a case that takes longer than a
//! minute ends it with the case's name, and `differ SEED CASE..END` runs cases again.

use harness::cases::compare::Met;
use harness::cases::{kind, on_a_small_stack, run};
use oracle::testing::watch::watch;
use std::ops::Range;
use std::process::{Command, ExitCode, Stdio};
use std::time::{Duration, Instant};

/// Cases that one process runs.
const BATCH: u64 = 32;
const BETWEEN_LINES: Duration = Duration::from_secs(30);

/// The name of a case, and how to run it again.
fn name(seed: u64, case: u64) -> String {
    let (kind, next) = (kind(case), case + 1);
    format!("seed {seed} case {case} ({kind}); again: differ {seed} {case}..{next}")
}

/// Runs the cases in this process, each on a stack of 4 MB, up to the first difference; the calls made.
fn run_all(seed: u64, cases: Range<u64>) -> Option<usize> {
    let mut calls = 0;
    for case in cases {
        let _watched = watch(name(seed, case));
        let one = move || {
            let mut met = Met::default();
            run(seed, case, &mut met);
            met.calls()
        };
        match on_a_small_stack(one) {
            Ok(more) => calls += more,
            Err(_) => {
                println!("difference: {}", name(seed, case));
                return None;
            }
        }
    }
    Some(calls)
}

/// Runs the cases in a process of their own, so that a crash can be named; the calls made.
fn run_apart(seed: u64, cases: Range<u64>) -> Option<usize> {
    let (first, end) = (cases.start, cases.end);
    let program = std::env::current_exe().expect("the path of this program");
    let mut apart = Command::new(program);
    apart.args([seed.to_string(), format!("{first}..{end}")]);
    let output = apart.stderr(Stdio::inherit()).output();
    let output = output.expect("this program, started once more");
    let told = String::from_utf8_lossy(&output.stdout);
    match output.status.code() {
        Some(0) => told.split(' ').nth(2)?.parse().ok(),
        Some(_) => {
            print!("{told}");
            None
        }
        None if end - first == 1 => {
            println!("crash: {}", name(seed, first));
            None
        }
        None => cases.map(|case| run_apart(seed, case..case + 1)).sum(),
    }
}

/// Runs cases from 0 on, so many minutes long; the cases and the calls made.
fn run_for(seed: u64, minutes: u64) -> Option<(u64, usize)> {
    let (begin, time) = (
        Instant::now(),
        Duration::from_secs(minutes.saturating_mul(60)),
    );
    let (mut cases, mut calls, mut last) = (0, 0, begin);
    while begin.elapsed() < time {
        calls += run_apart(seed, cases..cases + BATCH)?;
        cases += BATCH;
        if last.elapsed() >= BETWEEN_LINES {
            last = Instant::now();
            let seconds = begin.elapsed().as_secs();
            println!("{seconds} s: {cases} cases, {calls} calls");
        }
    }
    Some((cases, calls))
}

/// The cases of `FIRST..END`.
fn range(text: &str) -> Option<Range<u64>> {
    let (first, end) = text.split_once("..")?;
    Some(first.parse().ok()?..end.parse().ok()?)
}

fn main() -> ExitCode {
    let arguments: Vec<String> = std::env::args().skip(1).collect();
    let number = |text: &str| text.parse::<u64>().ok();
    let made = match &arguments[..] {
        [seed, what] => match (number(seed), number(what), range(what)) {
            (Some(seed), Some(minutes), _) => Some(run_for(seed, minutes)),
            (Some(seed), _, Some(cases)) => {
                let count = cases.end.saturating_sub(cases.start);
                Some(run_all(seed, cases).map(|calls| (count, calls)))
            }
            _ => None,
        },
        _ => None,
    };
    match made {
        Some(Some((cases, calls))) => {
            println!("{cases} cases, {calls} calls, no difference");
            ExitCode::SUCCESS
        }
        Some(None) => ExitCode::FAILURE,
        None => {
            eprintln!("usage: differ SEED MINUTES, or differ SEED CASE..END");
            ExitCode::from(2)
        }
    }
}
