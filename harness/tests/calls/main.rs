//! The calls of a host against the oracle, one subject a module. Seeds and counts are fixed.

mod bytes;
mod colliding;
mod damage;
mod deep;
mod designed;
mod elsewhere;
mod emitted;
mod fresh;
mod generators;
mod shortages;
mod sizes;
mod stored;
mod verdict;
mod view;
mod watch;
mod worked;
