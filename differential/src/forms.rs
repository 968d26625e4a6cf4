//! Stands kept in a file: stores held to an encoder, loads to a loader, both written from document 02, 2.2.

mod case;
mod check;
mod encoder;
mod fault;
mod harm;
mod loader;
mod run;
mod selftest;
mod small;
mod tally;
mod worked;

pub use run::{STANDS, run};
pub use selftest::self_test;
