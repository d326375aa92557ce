//! The proved functions beside a second program: those over the record table beside what they do, written
//! again by plain means from docs/SPECIFICATION.md, the calls of `crates/kuldveth` beside the oracle.

pub mod aimed;
pub mod asked;
pub mod bytes;
pub mod calls;
pub mod cases;
pub mod colliding;
pub mod crowded;
pub mod difference;
pub mod flat;
pub mod hashed;
pub mod index_model;
pub mod kuldveth;
pub mod learning;
pub mod lent;
pub mod listing;
pub mod plain;
pub mod probe;
pub mod program;
pub mod random;
pub mod scripts;
pub mod sound;
pub mod strange;
pub mod talk;
pub mod targets;
pub mod teacher;
pub mod teaching;
