//! Looking and loading against the oracle, one subject a module. Seeds and counts are fixed.

mod compare;
mod damage;
mod elsewhere;
mod full;
mod garbage;
mod layout;
mod lists;
mod runs;
mod sizes;
