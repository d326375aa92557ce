//! The emitted list: writing it and reading it again (docs/SPECIFICATION.md, 6).

use crate::lent::{Emitted, Refusal};
use crate::limits::{RULES_MAX, STATES_MAX};
use crate::run::Run;
use crate::table::{alphabet_fits, YES};

const KIND_COUNTS: u16 = 1;
const KIND_STATES: u16 = 2;
const KIND_RULE: u16 = 3;

fn put_block(out: &mut Vec<u8>, kind: u16, body: &[u8]) {
    out.extend((body.len() as u32).to_le_bytes());
    out.extend(kind.to_le_bytes());
    out.extend(body);
}

impl Run {
    /// The bytes of the proposed automaton, rules in order of T.
    pub fn list(&self) -> Vec<u8> {
        let mut out = Vec::new();
        put_block(&mut out, KIND_COUNTS, self.lists.alphabet());
        let representatives = self.lists.representatives().iter();
        let finals: Vec<u8> = representatives
            .map(|&row| u8::from(self.records.answer(row) == YES))
            .collect();
        put_block(&mut out, KIND_STATES, &finals);
        for (&row, &target) in self.lists.transitions().iter().zip(self.targets()) {
            let mut body = vec![self.records.key(row).symbol()];
            let children = self.records.children(row);
            body.extend(children.filter_map(|child| Some(self.roles.state(child)? as u8)));
            body.push(target);
            put_block(&mut out, KIND_RULE, &body);
        }
        out
    }
}

/// One rule: a symbol over child states gives a target state.
#[derive(Clone, Debug, PartialEq, Eq)]
pub struct Rule {
    pub symbol: u8,
    pub children: Vec<u8>,
    pub target: u8,
}

/// An automaton as a list tells it.
#[derive(Clone, Debug, PartialEq, Eq)]
pub struct Automaton {
    /// One child count per symbol.
    pub counts: Vec<u8>,
    /// For each state whether it is final.
    pub finals: Vec<bool>,
    pub rules: Vec<Rule>,
}

/// Splits off the first block: its kind, its body, and the bytes after it.
fn block(bytes: &[u8]) -> Option<(u16, &[u8], &[u8])> {
    let (length, rest) = bytes.split_first_chunk::<4>()?;
    let (kind, rest) = rest.split_first_chunk::<2>()?;
    let length = usize::try_from(u32::from_le_bytes(*length)).ok()?;
    let (body, after) = rest.split_at_checked(length)?;
    Some((u16::from_le_bytes(*kind), body, after))
}

/// Splits off the first block if it is of this kind.
fn block_of(kind: u16, bytes: &[u8]) -> Option<(&[u8], &[u8])> {
    let (found, body, after) = block(bytes)?;
    (found == kind).then_some((body, after))
}

/// Reads a rule's body: exact length, known numbers.
fn rule(body: &[u8], counts: &[u8], states: usize) -> Option<Rule> {
    let (&symbol, rest) = body.split_first()?;
    let (&target, children) = rest.split_last()?;
    let count = *counts.get(symbol as usize)? as usize;
    let known = rest.iter().all(|&state| (state as usize) < states);
    (known && children.len() == count).then(|| Rule {
        symbol,
        children: children.to_vec(),
        target,
    })
}

/// Whether two rules have the same left side.
fn left_side_repeats(rules: &[Rule]) -> bool {
    let left = |rule: &Rule| (rule.symbol, rule.children.clone());
    let mut sides: Vec<_> = rules.iter().map(left).collect();
    sides.sort_unstable();
    sides.windows(2).any(|pair| pair[0] == pair[1])
}

/// The automaton that a list tells, or none if the bytes break the form.
pub fn automaton(bytes: &[u8]) -> Option<Automaton> {
    let (counts, rest) = block_of(KIND_COUNTS, bytes)?;
    let (finals, mut rest) = block_of(KIND_STATES, rest)?;
    let finals_known = finals.iter().all(|&byte| byte <= 1);
    if !alphabet_fits(counts) || finals.len() > STATES_MAX || !finals_known {
        return None;
    }
    let mut rules = Vec::new();
    while !rest.is_empty() {
        let (body, after) = block_of(KIND_RULE, rest)?;
        if rules.len() == RULES_MAX {
            return None;
        }
        rules.push(rule(body, counts, finals.len())?);
        rest = after;
    }
    (!left_side_repeats(&rules)).then(|| Automaton {
        counts: counts.to_vec(),
        finals: finals.iter().map(|&byte| byte == 1).collect(),
        rules,
    })
}

/// Loads a list: the count of its rules, or refusal 21 (3.9).
pub fn load(bytes: &[u8]) -> Emitted {
    match automaton(bytes) {
        Some(read) => Emitted {
            number: 0,
            size: read.rules.len() as u32,
        },
        None => Refusal::BadList.into(),
    }
}
