//! The calls (docs/SPECIFICATION.md, 3). Each checks 18, 30, 31, then its input, and
//! works on copies until nothing can refuse it any more.

use crate::lent::{Emitted, Judged, Lists, Refusal, Seen, Verdict, ACCEPTED, ASKING, PROPOSING};
use crate::limits::ROW_WORDS;
use crate::run::Run;
use crate::table::{alphabet_fits, check_size, HOLE_WORDS, UNKNOWN};

fn told(outcome: Result<Seen, Refusal>) -> Seen {
    outcome.unwrap_or_else(Seen::from)
}

/// Begins a run that proposes the empty automaton (3.2). It reads nothing lent.
pub fn start(words: &mut [u32], lists: &mut Lists, counts: &[u8]) -> Seen {
    told(try_start(words, lists, counts))
}

fn try_start(words: &mut [u32], lists: &mut Lists, counts: &[u8]) -> Result<Seen, Refusal> {
    check_size(words)?;
    if !alphabet_fits(counts) {
        return Err(Refusal::BadAlphabet);
    }
    words[..ROW_WORDS].copy_from_slice(&HOLE_WORDS);
    *lists = Lists::zeroed();
    lists.letters = counts.len() as u8;
    lists.counts[..counts.len()].copy_from_slice(counts);
    lists.used = 1;
    lists.contexts = 1;
    Ok(lists.seen())
}

/// Tells the phase, the open row or 0, and the counts (3.3).
pub fn look(words: &[u32], lists: &Lists) -> Seen {
    told(Run::read(words, lists).map(|run| run.lists.seen()))
}

/// Takes a record, children before parent, with the archive's mark for it (3.4).
pub fn offer(words: &mut [u32], lists: &mut Lists, symbols: &[u8], mark: u8) -> Seen {
    told(try_offer(words, lists, symbols, mark))
}

fn try_offer(
    words: &mut [u32],
    lists: &mut Lists,
    symbols: &[u8],
    mark: u8,
) -> Result<Seen, Refusal> {
    let mut run = Run::read(words, lists)?;
    run.allow(&[PROPOSING])?;
    run.check_listed(symbols)?;
    if mark > 1 {
        return Err(Refusal::OddMark);
    }
    let stored = run.find_listed(symbols);
    let known = stored.map_or(UNKNOWN, |row| run.records.answer(row));
    if contradicts(known, mark) {
        return Err(Refusal::AnswerDiffers);
    }
    if (run.judge(symbols) == Verdict::Accepted) == (mark == 1) {
        return Err(Refusal::VerdictAgrees);
    }
    let row = run.store_listed(symbols)?;
    run.store_mark(row, mark);
    run.lists.hand = row;
    run.advance()?;
    Ok(run.write_back(row, words, lists))
}

/// Of the six cases of stored answer and mark, 33 at no (1) with yes (1), and at yes (2) with no (0) (5.2).
fn contradicts(stored: u8, mark: u8) -> bool {
    matches!((stored, mark), (1, 1) | (2, 0))
}

/// Takes the answer to the open question, 0 no and 1 yes (3.5).
pub fn answer(words: &mut [u32], lists: &mut Lists, mark: u8) -> Seen {
    told(try_answer(words, lists, mark))
}

fn try_answer(words: &mut [u32], lists: &mut Lists, mark: u8) -> Result<Seen, Refusal> {
    let mut run = Run::read(words, lists)?;
    run.allow(&[ASKING])?;
    if mark > 1 {
        return Err(Refusal::OddMark);
    }
    let row = std::mem::take(&mut run.lists.asked);
    run.store_mark(row, mark);
    run.advance()?;
    Ok(run.write_back(row, words, lists))
}

/// Accepts the proposal, which ends the run (3.6).
pub fn accept(words: &mut [u32], lists: &mut Lists) -> Seen {
    told(try_accept(words, lists))
}

fn try_accept(words: &[u32], lists: &mut Lists) -> Result<Seen, Refusal> {
    Run::read(words, lists)?.allow(&[PROPOSING])?;
    lists.accepted = 1;
    Ok(lists.seen())
}

/// Writes the proposed or accepted automaton as a list (3.7).
pub fn emit(words: &[u32], lists: &Lists, out: &mut [u8]) -> Emitted {
    match try_emit(words, lists, out) {
        Ok(size) => Emitted {
            number: 0,
            size: size as u32,
        },
        Err(refusal) => refusal.into(),
    }
}

fn try_emit(words: &[u32], lists: &Lists, out: &mut [u8]) -> Result<usize, Refusal> {
    let run = Run::read(words, lists)?;
    run.allow(&[PROPOSING, ACCEPTED])?;
    let bytes = run.list();
    let room = out.get_mut(..bytes.len()).ok_or(Refusal::ShortOutput)?;
    room.copy_from_slice(&bytes);
    Ok(bytes.len())
}

/// Tells the verdict on a record, children before parent (3.8).
pub fn verdict(words: &[u32], lists: &Lists, symbols: &[u8]) -> Judged {
    match try_verdict(words, lists, symbols) {
        Ok(verdict) => verdict.into(),
        Err(refusal) => refusal.into(),
    }
}

fn try_verdict(words: &[u32], lists: &Lists, symbols: &[u8]) -> Result<Verdict, Refusal> {
    let run = Run::read(words, lists)?;
    run.allow(&[PROPOSING, ACCEPTED])?;
    run.check_listed(symbols)?;
    Ok(run.judge(symbols))
}
