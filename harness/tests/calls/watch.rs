//! A case that takes too long ends its program with its name, and the name is enough to run it again.

use std::process::{Command, Output};

/// Runs `differ` with so many seconds for a case.
fn differ(seconds: &str, seed: &str, what: &str) -> Output {
    let mut differ = Command::new(env!("CARGO_BIN_EXE_differ"));
    let differ = differ.args([seed, what]).env("CASE_SECONDS", seconds);
    differ.output().expect("differ starts")
}

/// Checks the end of a `differ` that ran out of time, and gives what it is to be called with again.
fn named(ended: Output) -> String {
    let told = String::from_utf8(ended.stderr).unwrap();
    assert_eq!(ended.status.code(), Some(1), "{told}");
    let (name, again) = told.split_once("; again: differ 5 ").expect(&told);
    let (case, end) = again.trim().split_once("..").expect(&told);
    assert!(name.starts_with(&format!("longer than 0 s: seed 5 case {case} (")));
    assert_eq!(end.parse(), case.parse().map(|case: u64| case + 1));
    again.trim().to_string()
}

#[test]
fn cases_by_number() {
    let again = named(differ("0", "5", "0..4000"));
    let ended = differ("60", "5", &again);
    let told = String::from_utf8(ended.stdout).unwrap();
    assert_eq!(ended.status.code(), Some(0), "{told}");
    assert!(told.starts_with("1 cases, ") && told.ends_with(" calls, no difference\n"));
}

#[test]
fn cases_by_the_minute() {
    named(differ("0", "5", "1"));
}

/// The same for the cases of a test.
#[test]
fn cases_of_a_test() {
    let tests = std::env::current_exe().expect("the path of this program");
    let name = "elsewhere::shared_records_in_hand";
    let mut tests = Command::new(tests);
    let ended = tests.args(["--exact", name]).env("CASE_SECONDS", "0");
    let ended = ended.output().expect("the tests start");
    let told = String::from_utf8(ended.stderr).unwrap();
    assert_eq!(ended.status.code(), Some(1), "{told}");
    assert!(
        told.starts_with("longer than 0 s: seed 222 case "),
        "{told}"
    );
    assert!(told.ends_with(&format!(" cargo test {name}\n")), "{told}");
}
