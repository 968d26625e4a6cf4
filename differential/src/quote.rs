//! The program quote against the reference of trial: the same calls as lines of words, some of them bad.

mod bad;
mod fault;
mod line;
mod pen;
mod run;
mod selftest;
mod spoil;
mod tally;
mod text;
mod words;

pub use run::{TEXTS, run};
pub use selftest::self_test;
