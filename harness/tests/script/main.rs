//! The script program against the oracle's, one subject a module. Seeds and counts are fixed.

mod compare;
mod deep;
mod first;
mod pieces;
mod places;
mod random;
mod survey;
mod talk;
