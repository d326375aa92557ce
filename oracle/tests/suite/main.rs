//! The tests, one subject a module. Seeds and counts are fixed.

mod big;
mod generators;
mod hostile;
mod learning;
mod limits;
mod lists;
mod naive;
mod run;
mod script;
mod survey;
mod verdict;
