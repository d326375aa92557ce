//! The script program: lines in, lines out (docs/SPECIFICATION.md, 8). Records nest
//! thousands deep, so the reader and the printer keep stacks of their own.

use crate::calls::{accept, answer, offer, start, verdict};
use crate::lent::{Lists, Refusal, Row, Seen, ACCEPTED, ASKING, NO_RULE};
use crate::limits::{RECORD_MAX, ROW_WORDS, SCRIPT_BYTES, SCRIPT_ROWS};
use std::fmt::{self, Write};

/// The output for an input, of which the first 65,536 bytes count.
pub fn run(input: &[u8]) -> String {
    let input = &input[..input.len().min(SCRIPT_BYTES)];
    let mut out = String::new();
    if input.is_empty() {
        return out;
    }
    let whole = input.strip_suffix(b"\n").unwrap_or(input);
    let mut lines = whole.split(|&byte| byte == b'\n');
    let first = lines.next().and_then(Session::open);
    let Some((mut session, seen)) = first else {
        return "unread\n".to_string();
    };
    session.tell(Reply::Seen(seen), &mut out);
    if seen.number != 0 {
        return out;
    }
    for line in lines {
        match session.call(line) {
            Some(reply) => session.tell(reply, &mut out),
            None => out.push_str("unread\n"),
        }
    }
    out
}

/// Reads the first line: letters and one-digit child counts, alternating.
fn alphabet(line: &[u8]) -> Option<(Vec<u8>, Vec<u8>)> {
    let (mut letters, mut counts) = (Vec::new(), Vec::new());
    if line.is_empty() {
        return Some((letters, counts));
    }
    let mut items = line.split(|&byte| byte == b' ');
    while let Some(letter) = items.next() {
        let (&[letter], &[digit]) = (letter, items.next()?) else {
            return None;
        };
        if !letter.is_ascii_alphabetic() || !digit.is_ascii_digit() || letters.contains(&letter) {
            return None;
        }
        letters.push(letter);
        counts.push(digit - b'0');
    }
    Some((letters, counts))
}

/// What a line that can be read gets.
enum Reply {
    /// What its call told.
    Seen(Seen),
    /// 32 to an offer, and the place of the symbol that found no rule.
    NoRule(u16),
}

/// A run with the letters of its symbols.
struct Session {
    letters: Vec<u8>,
    words: Vec<u32>,
    lists: Lists,
}

impl Session {
    /// Starts a run from the first line; none if it is unread.
    fn open(line: &[u8]) -> Option<(Session, Seen)> {
        let (letters, counts) = alphabet(line)?;
        let mut words = vec![0; SCRIPT_ROWS * ROW_WORDS];
        let mut lists = Lists::zeroed();
        let seen = start(&mut words, &mut lists, &counts);
        let session = Session {
            letters,
            words,
            lists,
        };
        Some((session, seen))
    }

    /// Makes the call of a later line; none if it is unread.
    fn call(&mut self, line: &[u8]) -> Option<Reply> {
        let (words, lists) = (&mut self.words, &mut self.lists);
        let seen = match line {
            b"y" => answer(words, lists, 1),
            b"n" => answer(words, lists, 0),
            b"ok" => accept(words, lists),
            [sign @ (b'+' | b'-'), b' ', record @ ..] => {
                let symbols = read_record(record, &self.letters, lists.alphabet())?;
                return Some(self.offer(&symbols, u8::from(*sign == b'+')));
            }
            _ => return None,
        };
        Some(Reply::Seen(seen))
    }

    /// Offers a record, and where that gets 32 asks for the verdict on it.
    fn offer(&mut self, symbols: &[u8], mark: u8) -> Reply {
        let seen = offer(&mut self.words, &mut self.lists, symbols, mark);
        if seen.number == Refusal::VerdictAgrees as u8 {
            let judged = verdict(&self.words, &self.lists, symbols);
            if judged.outcome == NO_RULE {
                return Reply::NoRule(judged.place);
            }
        }
        Reply::Seen(seen)
    }

    /// Writes the output line of a call.
    fn tell(&self, reply: Reply, out: &mut String) {
        let written = match reply {
            Reply::Seen(seen) => self.tell_seen(seen, out),
            Reply::NoRule(place) => {
                writeln!(out, "refused {} {place}", Refusal::VerdictAgrees as u8)
            }
        };
        written.expect("a string takes every line");
    }

    /// Writes what a call told, or its number.
    fn tell_seen(&self, seen: Seen, out: &mut String) -> fmt::Result {
        match (seen.number, seen.phase) {
            (0, ACCEPTED) => writeln!(out, "accepted"),
            (0, ASKING) if self.size_capped(seen.row) > RECORD_MAX => {
                writeln!(out, "ask row {}", seen.row)
            }
            (0, ASKING) => writeln!(out, "ask {}", self.print(seen.row)),
            (0, _) => writeln!(
                out,
                "propose {} {} {}",
                seen.states, seen.rules, seen.contexts
            ),
            (number, _) => writeln!(out, "refused {number}"),
        }
    }

    fn children(&self, row: Row) -> &[u32] {
        let words = &self.words[row as usize * ROW_WORDS..][..ROW_WORDS];
        &words[2..][..self.lists.counts[words[0] as usize] as usize]
    }

    /// The symbols of a record, counted row by row up to one more than are written out.
    fn size_capped(&self, row: Row) -> usize {
        let mut sizes = vec![0; row as usize + 1];
        for row in 1..=row {
            let below: usize = self.children(row).iter().map(|&c| sizes[c as usize]).sum();
            sizes[row as usize] = (1 + below).min(RECORD_MAX + 1);
        }
        sizes[row as usize]
    }

    /// A record as letters, brackets and commas.
    fn print(&self, row: Row) -> String {
        enum Part {
            Record(Row),
            Mark(char),
        }
        let mut out = String::new();
        let mut parts = vec![Part::Record(row)];
        while let Some(part) = parts.pop() {
            let row = match part {
                Part::Mark(mark) => {
                    out.push(mark);
                    continue;
                }
                Part::Record(row) => row,
            };
            let symbol = self.words[row as usize * ROW_WORDS];
            out.push(self.letters[symbol as usize] as char);
            let children = self.children(row);
            for (place, &child) in children.iter().enumerate().rev() {
                let after = if place + 1 == children.len() {
                    ']'
                } else {
                    ','
                };
                parts.push(Part::Mark(after));
                parts.push(Part::Record(child as Row));
            }
            if !children.is_empty() {
                parts.push(Part::Mark('['));
            }
        }
        out
    }
}

/// Reads a record as symbols, children before parent; none unless the whole of it is
/// written with known letters and as many children as each letter has. Every turn reads a byte.
fn read_record(text: &[u8], letters: &[u8], counts: &[u8]) -> Option<Vec<u8>> {
    let mut symbols = Vec::new();
    // Symbols whose brackets are open, with the children still to come.
    let mut open: Vec<(u8, u8)> = Vec::new();
    let mut bytes = text.iter();
    loop {
        let letter = bytes.next()?;
        let symbol = letters.iter().position(|known| known == letter)?;
        if counts[symbol] > 0 {
            if bytes.next()? != &b'[' {
                return None;
            }
            open.push((symbol as u8, counts[symbol]));
            continue;
        }
        symbols.push(symbol as u8);
        loop {
            let Some((symbol, left)) = open.last_mut() else {
                return bytes.next().is_none().then_some(symbols);
            };
            *left -= 1;
            if *left > 0 {
                if bytes.next()? != &b',' {
                    return None;
                }
                break;
            }
            if bytes.next()? != &b']' {
                return None;
            }
            symbols.push(*symbol);
            open.pop();
        }
    }
}
