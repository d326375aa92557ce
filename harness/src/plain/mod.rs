//! What the functions over the record table do, by plain means: clause by clause, recursion, linear search. Nothing here is
//! made to be fast, and nothing is taken from their way of doing it.

mod grow;
mod listed;
mod terms;

pub use grow::{fill, store, Grown};
pub use listed::{fault, known, Tree};
pub use terms::{passes, Node, Terms};
