//! Learning partial deterministic bottom-up tree automata from offered records and
//! answered questions, over tables that the host lends to each call.
//!
//! `docs/SPECIFICATION.md` says what the calls do; this crate is a second, independent
//! program for it, to compare with and to measure against.

pub mod calls;
mod hand;
mod hypothesis;
mod index;
pub mod lent;
pub mod limits;
pub mod list;
mod listed;
mod observe;
mod roles;
mod run;
pub mod script;
mod sound;
mod steps;
mod table;
pub mod testing;
mod view;

pub use calls::{accept, answer, emit, look, offer, start, verdict};
pub use lent::{Emitted, Lists, Refusal, Row, Seen, ACCEPTED, ASKING, PROPOSING};
pub use lent::{Found, ListRule, ListSizes};
pub use lent::{Judged, Verdict, ACCEPTS, NOT_FINAL, NO_RULE};
pub use list::{automaton, load, Automaton, Rule};
pub use view::View;
