//! A second implementation of the MKA participant, for comparison.

pub mod compare;
pub mod cost;
pub mod gen;
pub mod mutants;
pub mod octets;
pub mod reach;
pub mod rules;
pub mod runs;
mod watch;
mod watch_frame;
