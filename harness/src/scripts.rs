//! Random scripts: lines of every sort over random alphabets, runs that a teacher leads, and loose
//! bytes.

use crate::calls::oracle_call;
use crate::targets;
use crate::teaching::{proposal, roaming, started, told, truthful};
use oracle::limits::{RECORD_MAX, SCRIPT_ROWS};
use oracle::testing::compare::{Call, Tables};
use oracle::testing::likely;
use oracle::testing::random::Random;
use oracle::testing::target::Target;

const LETTERS: &[u8] = b"abcdefghijklmnopqrstuvwxyzABCDEFGHIJKLMNOPQRSTUVWXYZ";

/// Lines that cannot be read, whatever the alphabet.
const UNREAD: [&str; 18] = [
    "", "+", "-", "+ ", "- ", "y ", " n", "Y", "yy", "no", "okk", "ok ", "OK", "+  a", "-a", "\t",
    "y\r", "+ \u{e9}",
];

/// The bytes of a script without its meaning.
const LOOSE: [&str; 20] = [
    "y", "n", "ok", "+ ", "- ", "o[", "p", "]", ",", "b[", "q", "\n", "\n", "\n", "\n", " ", "[",
    "\u{e9}", "\0", "\r",
];

/// The letters of an alphabet and their child counts.
pub struct Alphabet {
    letters: Vec<u8>,
    counts: Vec<u8>,
}

impl Alphabet {
    /// An alphabet with so many letters out of all.
    fn named(counts: &[u8], random: &mut Random) -> Alphabet {
        let mut left = LETTERS.to_vec();
        let letters = (0..counts.len()).map(|_| left.swap_remove(random.below(left.len())));
        Alphabet {
            letters: letters.collect(),
            counts: counts.to_vec(),
        }
    }

    /// A random alphabet, mostly with a leaf, seldom with a count that start refuses.
    fn random(random: &mut Random) -> Alphabet {
        let most = *random.pick(&[2, 4, 6, 52]);
        let size = random.within(1, most);
        let mut counts: Vec<u8> = (0..size)
            .map(|_| *random.pick(&[0, 0, 1, 2, 2, 3, 4]))
            .collect();
        let place = random.below(size);
        if random.percent(90) {
            counts[place] = 0;
        }
        if random.percent(3) {
            counts[random.below(size)] = random.within(5, 9) as u8;
        }
        Alphabet::named(&counts, random)
    }

    /// The first line.
    fn line(&self) -> String {
        let pairs = self.letters.iter().zip(&self.counts);
        let items: Vec<String> = pairs
            .map(|(&letter, count)| format!("{} {count}", letter as char))
            .collect();
        items.join(" ")
    }

    /// A letter with children, in brackets if there are any.
    fn joined(&self, symbol: usize, children: &[String]) -> String {
        let letter = self.letters[symbol] as char;
        match children {
            [] => letter.to_string(),
            _ => format!("{letter}[{}]", children.join(",")),
        }
    }

    /// A record, given children before parent.
    fn text(&self, symbols: &[u8]) -> String {
        let mut ready: Vec<String> = Vec::new();
        for &symbol in symbols {
            let rest = ready.len() - self.counts[symbol as usize] as usize;
            let whole = self.joined(symbol as usize, &ready[rest..]);
            ready.truncate(rest);
            ready.push(whole);
        }
        ready.concat()
    }

    /// The line of a call.
    fn call(&self, call: &Call) -> String {
        match call {
            Call::Offer(symbols, 0) => format!("- {}", self.text(symbols)),
            Call::Offer(symbols, _) => format!("+ {}", self.text(symbols)),
            Call::Answer(0) => "n".to_string(),
            Call::Answer(_) => "y".to_string(),
            _ => "ok".to_string(),
        }
    }

    fn leaf(&self) -> Option<usize> {
        self.counts.iter().position(|&count| count == 0)
    }

    /// A record of at most so many levels; where no leaf ends it, a letter without its children does.
    fn record(&self, random: &mut Random, levels: usize) -> String {
        let symbol = match self.leaf() {
            Some(leaf) if levels == 0 || random.percent(25) => leaf,
            _ => random.below(self.counts.len()),
        };
        let count = if levels == 0 { 0 } else { self.counts[symbol] };
        let children: Vec<String> = (0..count)
            .map(|_| self.record(random, levels - 1))
            .collect();
        self.joined(symbol, &children)
    }

    /// A chain of one letter over leaves with about as many symbols as may be offered.
    fn long(&self, random: &mut Random) -> String {
        let link = random.below(self.counts.len());
        let count = self.counts[link] as usize;
        let leaf = self.joined(self.leaf().unwrap_or(0), &[]);
        if count == 0 {
            return leaf;
        }
        let (place, letter) = (random.below(count), self.letters[link] as char);
        let before = format!("{letter}[{}", format!("{leaf},").repeat(place));
        let after = format!("{}]", format!(",{leaf}").repeat(count - 1 - place));
        let links = (RECORD_MAX - 1) / count + random.below(4) - 2;
        before.repeat(links) + &leaf + &after.repeat(links)
    }

    /// Any line: a call, an offer whose record may be damaged, or one that cannot be read.
    fn any_line(&self, random: &mut Random) -> String {
        match random.below(100) {
            0..=44 => random.pick(&["y", "n"]).to_string(),
            45..=87 => {
                let levels = random.below(5);
                let record = match random.percent(6) {
                    true => self.long(random),
                    false => self.record(random, levels),
                };
                let sign = *random.pick(&["+", "+", "-"]);
                match random.percent(10) {
                    true => damaged(&format!("{sign} {record}"), random),
                    false => format!("{sign} {record}"),
                }
            }
            88..=90 => "ok".to_string(),
            _ => random.pick(&UNREAD).to_string(),
        }
    }
}

/// A line with one character inserted, exchanged or taken away.
fn damaged(line: &str, random: &mut Random) -> String {
    let mut bytes = line.as_bytes().to_vec();
    let place = random.below(bytes.len() + 1);
    let end = (place + random.below(2)).min(bytes.len());
    let byte = *random.pick(b"[[]],,ab +-?\r\0");
    let with = if random.percent(70) {
        vec![byte]
    } else {
        vec![]
    };
    bytes.splice(place..end, with);
    String::from_utf8_lossy(&bytes).into_owned()
}

/// Lines to bytes, the last one closed or not.
fn joined(lines: &[String], random: &mut Random) -> Vec<u8> {
    let end = if random.percent(80) { "\n" } else { "" };
    (lines.join("\n") + end).into_bytes()
}

/// Lines of every sort over a random alphabet.
pub fn any_lines(random: &mut Random) -> Vec<u8> {
    let alphabet = Alphabet::random(random);
    let mut lines = vec![alphabet.line()];
    if random.percent(4) {
        lines[0] = damaged(&lines[0], random);
    }
    let count = random.below(60);
    lines.extend((0..count).map(|_| alphabet.any_line(random)));
    joined(&lines, random)
}

/// An offer of any record with the mark that the proposal has for it. It gets 32, or 33 if the opposite was said.
fn agreeing(tables: &Tables, random: &mut Random) -> Call {
    let (proposed, size) = (proposal(tables), *random.pick(&[4, 20, 300]));
    let record = match random.percent(50) {
        true => likely::record(&proposed, random, size),
        false => Target::random_record(proposed.counts(), random, size),
    };
    let mark = proposed.accepts(&record) as u8;
    Call::Offer(record, mark)
}

/// A run that a teacher leads, right or often wrong, with lines between that are unread or refused.
pub fn led(random: &mut Random) -> Vec<u8> {
    let states = random.within(1, 10);
    let letters = random.within(2, 8);
    let target = targets::random(random, states, letters, 4 * states);
    let teacher = random.below(4);
    let mut tables = started(target.counts(), SCRIPT_ROWS);
    let alphabet = Alphabet::named(target.counts(), random);
    let mut lines = vec![alphabet.line()];
    while tables.lists.accepted == 0 && lines.len() < 150 {
        let asking = tables.lists.asked != 0;
        match random.below(20) {
            0 => lines.push(random.pick(&UNREAD).to_string()),
            1 if asking => lines.push("ok".to_string()),
            1 => lines.push(random.pick(&["y", "n"]).to_string()),
            2..=3 if !asking => {
                let call = agreeing(&tables, random);
                lines.push(alphabet.call(&call));
            }
            _ => {
                let call = match teacher {
                    0 => truthful(&target, &tables),
                    1 => roaming(&target, &tables, random),
                    2 => told(&target, &tables, random, 95),
                    _ => told(&target, &tables, random, 60),
                };
                oracle_call(&mut tables.words, &mut tables.lists, &call);
                lines.push(alphabet.call(&call));
            }
        }
    }
    joined(&lines, random)
}

/// Bytes that mean something by chance only.
pub fn loose(random: &mut Random) -> Vec<u8> {
    let mut input = String::new();
    if random.percent(90) {
        input += "o 1 p 0 b 2\n";
    }
    (0..random.below(40)).for_each(|_| input += *random.pick::<&str>(&LOOSE));
    input.into_bytes()
}
