//! The trial program against the same program over the Rust, script by script.

mod author;
pub mod call;
mod fault;
pub mod process;
pub mod program;
mod run;
pub mod script;
mod selftest;
pub mod tally;

pub use run::{SCRIPTS, run};
pub use selftest::self_test;
