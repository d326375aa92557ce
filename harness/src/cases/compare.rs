//! One call by both, and what the calls of a case met.

use super::shrink::smaller_call;
use crate::bytes::{of_emitted, raw_emitted};
use crate::calls::{guarded, oracle_call};
use crate::kuldveth;
use oracle::testing::compare::{Call, Tables};
use oracle::testing::shrink::smallest;
use oracle::testing::verdicts::beside_offer;
use oracle::{Emitted, Seen, ACCEPTED, ASKING};

/// What the oracle makes of a call on copies of the tables.
fn expected(tables: &Tables, call: &Call) -> (Seen, Tables) {
    let mut tables = tables.clone();
    let seen = oracle_call(&mut tables.words, &mut tables.lists, call);
    (seen, tables)
}

fn differ(tables: &Tables, call: &Call) -> bool {
    let (seen, left) = expected(tables, call);
    !guarded(tables, call).is(&seen, &left)
}

/// Makes the call by both on the tables and leaves them as it left them. Every returned byte, every word
/// and every byte of the lists is the same by both, and a refused call leaves all as it was.
pub fn both(tables: &mut Tables, call: &Call) -> Seen {
    let (seen, left) = expected(tables, call);
    if !guarded(tables, call).is(&seen, &left) {
        report(tables.clone(), call.clone());
    }
    if seen.number != 0 {
        assert!(left == *tables, "{call:?} changed\n{tables:?}");
        let zeros = Seen {
            number: seen.number,
            ..Seen::default()
        };
        assert_eq!(seen, zeros, "{call:?} on\n{tables:?}");
    }
    *tables = left;
    seen
}

/// Panics with the smallest input found on which both differ.
fn report(tables: Tables, call: Call) -> ! {
    let differ = |(tables, call): &(Tables, Call)| differ(tables, call);
    let (tables, call) = smallest((tables, call), smaller_call, differ);
    let found = guarded(&tables, &call);
    let (seen, left) = (found.seen, found.tables());
    let (expected, right) = expected(&tables, &call);
    panic!(
        "{call:?} over\n{tables:?}\nlibrary: {seen:?}\n{left:?}\noracle: {expected:?}\n{right:?}"
    );
}

/// Room for the longest list.
pub const LIST_MAX: usize = 4_096;

/// Bytes around the output that no call may write, and what all of them hold before.
const EDGE: usize = 64;
const EDGE_BYTE: u8 = 0xA5;

/// Emits by both into so many bytes: the same numbers and bytes, and what was lent stays.
pub fn emit(tables: &Tables, room: usize) -> (Emitted, Vec<u8>) {
    let before = tables.clone();
    let mut found = vec![EDGE_BYTE; room + 2 * EDGE];
    let mut expected = found.clone();
    let within = EDGE..EDGE + room;
    let emitted = kuldveth::emit(&tables.words, &tables.lists, &mut found[within.clone()]);
    let right = oracle::emit(&before.words, &before.lists, &mut expected[within.clone()]);
    assert_eq!(
        raw_emitted(emitted),
        of_emitted(&right),
        "emitting with room for {room} from\n{before:?}"
    );
    assert_eq!(
        found, expected,
        "emitting with room for {room} from\n{before:?}"
    );
    assert!(*tables == before, "emitting changed\n{before:?}");
    (emitted, found[within].to_vec())
}

/// Loads by both: the same number and count, and the bytes stay.
pub fn load(bytes: &[u8]) -> Emitted {
    let before = bytes.to_vec();
    let loaded = kuldveth::load(bytes);
    let right = of_emitted(&oracle::load(&before));
    assert_eq!(raw_emitted(loaded), right, "loading {before:?}");
    assert_eq!(bytes, before, "loading changed the bytes");
    loaded
}

/// How often each number came back, and each sort of tables was left by a taken call.
#[derive(Debug)]
pub struct Met {
    pub numbers: [usize; 256],
    /// The numbers of emitting and loading, which are not among those.
    pub listed: [usize; 256],
    /// Those of verdicts, and how often each outcome was told.
    pub judged: [usize; 256],
    pub outcomes: [usize; 4],
    pub asking: usize,
    pub in_hand: usize,
    pub accepted: usize,
    /// Records in hand that a call exchanged or put down.
    pub moved: usize,
    /// Taken calls that left more contexts than T4 allows.
    pub overfull: usize,
    pub most: Seen,
}

impl Default for Met {
    fn default() -> Met {
        Met {
            numbers: [0; 256],
            listed: [0; 256],
            judged: [0; 256],
            outcomes: [0; 4],
            asking: 0,
            in_hand: 0,
            accepted: 0,
            moved: 0,
            overfull: 0,
            most: Seen::default(),
        }
    }
}

impl Met {
    /// Makes the call by both and counts what came of it. An offer fits the verdict on its record.
    pub fn call(&mut self, tables: &mut Tables, call: &Call) -> Seen {
        let hand = tables.lists.hand;
        let foretold = self.foretold(tables, call);
        let seen = both(tables, call);
        if let Some((judged, mark)) = foretold {
            beside_offer(&tables.lists, judged, mark, seen.number);
        }
        self.numbers[seen.number as usize] += 1;
        if seen.number == 0 {
            self.asking += usize::from(seen.phase == ASKING);
            self.accepted += usize::from(seen.phase == ACCEPTED);
            self.in_hand += usize::from(tables.lists.hand != 0);
            self.moved += usize::from(hand != 0 && tables.lists.hand != hand);
            self.most.states = self.most.states.max(seen.states);
            self.most.rules = self.most.rules.max(seen.rules);
            self.most.contexts = self.most.contexts.max(seen.contexts);
        }
        seen
    }

    /// Emits by both into so many bytes and counts what came of it.
    pub fn emit(&mut self, tables: &Tables, room: usize) -> (Emitted, Vec<u8>) {
        let (emitted, out) = emit(tables, room);
        self.listed[emitted.number as usize] += 1;
        (emitted, out)
    }

    /// Loads by both and counts what came of it.
    pub fn load(&mut self, bytes: &[u8]) -> Emitted {
        let loaded = load(bytes);
        self.listed[loaded.number as usize] += 1;
        loaded
    }

    /// Calls made.
    pub fn calls(&self) -> usize {
        let numbers = [&self.numbers, &self.listed, &self.judged];
        numbers.into_iter().flatten().sum()
    }

    /// Makes the call on a copy.
    pub fn try_call(&mut self, tables: &Tables, call: &Call) -> Seen {
        self.call(&mut tables.clone(), call)
    }

    /// Makes the call on a copy; panics unless it is refused with the number.
    pub fn refused(&mut self, tables: &Tables, call: &Call, number: u8) {
        let seen = self.try_call(tables, call);
        assert_eq!(seen.number, number, "{call:?} on\n{tables:?}");
    }

    /// A taken call returns what a look right after it does (3.1). Both are asked for verdicts on what it left.
    pub fn look_again(&mut self, tables: &Tables, seen: Seen) {
        if seen.number == 0 {
            assert_eq!(self.try_call(tables, &Call::Look), seen);
            // While asking every verdict gets 31, and one table in eight is enough.
            if seen.phase != ASKING || tables.lists.used.is_multiple_of(8) {
                self.verdicts(tables);
            }
        }
    }

    /// Panics if one of the numbers came fewer times.
    pub fn at_least(&self, times: usize, numbers: impl IntoIterator<Item = usize>) {
        for number in numbers {
            assert!(self.numbers[number] >= times, "{number}: {self}");
        }
    }

    /// The same of emitting and loading.
    pub fn listed_at_least(&self, times: usize, numbers: impl IntoIterator<Item = usize>) {
        for number in numbers {
            assert!(self.listed[number] >= times, "{number}: {self}");
        }
    }
}

impl std::fmt::Display for Met {
    fn fmt(&self, out: &mut std::fmt::Formatter) -> std::fmt::Result {
        for numbers in [&self.numbers, &self.listed, &self.judged] {
            let numbers = numbers.iter().enumerate().filter(|(_, &met)| met > 0);
            write!(out, "{:?} ", numbers.collect::<Vec<_>>())?;
        }
        let Met {
            outcomes,
            asking,
            in_hand,
            accepted,
            moved,
            overfull,
            most,
            ..
        } = self;
        write!(
            out,
            "outcomes {outcomes:?} asking {asking} in hand {in_hand} accepted {accepted} "
        )?;
        write!(out, "moved {moved} overfull {overfull} most {most:?}")
    }
}
