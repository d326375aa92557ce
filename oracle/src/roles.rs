//! Which rows are transitions and which are representatives (T2, T3).

use crate::lent::{Lists, Row};
use crate::table::Records;

/// For each row its position in T and in S, counted from 1; 0 is none.
pub struct Roles {
    rule: Vec<u16>,
    state: Vec<u8>,
}

impl Roles {
    /// Enters T and S; none unless T2 and T3 hold.
    pub fn read(records: &Records, lists: &Lists) -> Option<Roles> {
        let mut roles = Roles {
            rule: vec![0; records.used()],
            state: vec![0; records.used()],
        };
        for (position, &row) in lists.transitions().iter().enumerate() {
            if !records.is_record(row) || roles.rule[row as usize] != 0 {
                return None;
            }
            roles.rule[row as usize] = position as u16 + 1;
        }
        for (position, &row) in lists.representatives().iter().enumerate() {
            if roles.rule(row).is_none() || roles.state(row).is_some() {
                return None;
            }
            roles.state[row as usize] = position as u8 + 1;
        }
        let mut transitions = lists.transitions().iter();
        let closed = transitions.all(|&row| {
            records
                .children(row)
                .all(|child| roles.state(child).is_some())
        });
        closed.then_some(roles)
    }

    /// The position of a row in T. Rows added since are in neither list.
    pub fn rule(&self, row: Row) -> Option<usize> {
        let entry = *self.rule.get(row as usize)? as usize;
        entry.checked_sub(1)
    }

    /// The position of a row in S, which is its state.
    pub fn state(&self, row: Row) -> Option<usize> {
        let entry = *self.state.get(row as usize)? as usize;
        entry.checked_sub(1)
    }
}
