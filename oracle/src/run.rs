//! A run as one call works on it: the records, a copy of the lists, and what follows
//! from them. The host's own tables are written only by `write_back`.

use crate::lent::{Lists, Refusal, Row, Seen};
use crate::observe::Observations;
use crate::roles::Roles;
use crate::table::Records;

pub struct Run {
    pub records: Records,
    pub lists: Lists,
    pub roles: Roles,
    pub observed: Observations,
    /// The state of each transition; none while an answer of T at C is missing.
    pub targets: Option<Vec<u8>>,
}

impl Run {
    /// Refusal 31: the phase is one in which the call is allowed (3.1).
    pub fn allow(&self, phases: &[u8]) -> Result<(), Refusal> {
        if phases.contains(&self.lists.seen().phase) {
            Ok(())
        } else {
            Err(Refusal::NotNow)
        }
    }

    /// The state of each transition, in a phase or with a record that guarantees them.
    pub fn targets(&self) -> &[u8] {
        self.targets.as_deref().unwrap_or(&[])
    }

    /// Stores an answer or mark, 0 or 1, for a record.
    pub fn store_mark(&mut self, row: Row, mark: u8) {
        self.records.set_answer(row, mark + 1);
    }

    /// Leaves the outcome of a taken call in the lent tables. Beside the appended rows
    /// one answer may be new, that of the row asked or offered.
    pub fn write_back(mut self, marked: Row, words: &mut [u32], lists: &mut Lists) -> Seen {
        self.records.write_answer(marked, words);
        self.records.write_from(lists.used as usize, words);
        self.lists.used = self.records.used() as u16;
        *lists = self.lists;
        lists.seen()
    }
}
