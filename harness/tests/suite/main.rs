//! Bank against the second program, one subject a module. Seeds and counts are fixed.

mod colliding;
mod compare;
mod depth;
mod fill;
mod find;
mod listed;
mod pass;
mod walks;
