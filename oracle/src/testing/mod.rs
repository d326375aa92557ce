//! What the tests, the fuzz program and the benchmarks share: teachers, a deliberately
//! naive second learner, tables from elsewhere, full-size tables.

pub mod big;
pub mod cases;
pub mod checked;
pub mod compare;
pub mod damage;
pub mod elsewhere;
pub mod likely;
pub mod marks;
pub mod naive;
pub mod random;
pub mod reading;
pub mod refusals;
pub mod shrink;
pub mod stored;
pub mod target;
pub mod terms;
pub mod verdicts;
pub mod watch;
