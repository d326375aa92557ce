//! One script by both programs, and what its lines got.

use harness::program;
use std::collections::{BTreeMap, BTreeSet};
use std::time::{Duration, Instant};

/// Runs a script by both; what both wrote. Panics with the smallest script found on which they differ.
pub fn both(input: &[u8]) -> String {
    let output = program::run(input).output;
    if output != oracle::script::run(input) {
        report(input);
    }
    output
}

fn differ(input: &[u8]) -> bool {
    program::run(input).output != oracle::script::run(input)
}

/// How long a smaller script is looked for.
const SHRINKING: Duration = Duration::from_secs(10);

/// Takes lines away while the programs differ, then shows the first reply that is not the same.
fn report(input: &[u8]) -> ! {
    let mut lines: Vec<&[u8]> = input.split_inclusive(|&byte| byte == b'\n').collect();
    let (mut place, begin) = (1, Instant::now());
    while place < lines.len() && begin.elapsed() < SHRINKING {
        let mut fewer = lines.clone();
        fewer.remove(place);
        match differ(&fewer.concat()) {
            true => lines = fewer,
            false => place += 1,
        }
    }
    let input = lines.concat();
    let (program, oracle) = (program::run(&input).output, oracle::script::run(&input));
    let mut replies = program.lines().zip(oracle.lines()).enumerate();
    let first = replies.find(|(_, (one, other))| one != other);
    let input = String::from_utf8_lossy(&input);
    panic!(
        "on\n{input:?}\nthe programs differ at {first:?}\nprogram: {program:?}\noracle: {oracle:?}"
    );
}

/// How often each sort of reply came, and the places that were told.
#[derive(Default)]
pub struct Met {
    replies: BTreeMap<String, usize>,
    places: BTreeSet<usize>,
}

impl Met {
    /// Runs a script by both and counts its replies: refusals by number, with or without a place, the others by their word.
    pub fn script(&mut self, input: &[u8]) {
        for reply in both(input).lines() {
            let words: Vec<&str> = reply.split(' ').collect();
            let sort = match words[..] {
                ["refused", number, place] => {
                    self.places.insert(place.parse().expect("a place"));
                    format!("refused {number} K")
                }
                ["refused", number] => format!("refused {number}"),
                ["ask", "row", _] => "ask row".to_string(),
                _ => words[0].to_string(),
            };
            *self.replies.entry(sort).or_default() += 1;
        }
    }

    /// Prints what came.
    pub fn show(&self, name: &str) {
        let sorts = self.replies.iter();
        let shown: Vec<String> = sorts
            .map(|(sort, times)| format!("{sort}: {times}"))
            .collect();
        println!("{name}: {}; places {:?}", shown.join(", "), self.places);
    }

    /// Panics if fewer different places were told.
    pub fn places_at_least(&self, places: usize) {
        assert!(self.places.len() >= places, "{:?}", self.places);
    }

    /// Panics if one of these came fewer times, or if a reply came that no script can get.
    pub fn at_least(&self, times: usize, sorts: &[&str]) {
        for sort in sorts {
            let met = self.replies.get(*sort).copied().unwrap_or(0);
            assert!(met >= times, "{sort}: {:?}", self.replies);
        }
        for number in [11, 13, 14, 15, 16, 18, 20, 21, 30] {
            let sort = format!("refused {number}");
            assert!(!self.replies.contains_key(&sort), "{:?}", self.replies);
        }
        let placed = self.replies.keys().filter(|sort| sort.ends_with(" K"));
        placed.for_each(|sort| assert_eq!(sort, "refused 32 K"));
    }
}
