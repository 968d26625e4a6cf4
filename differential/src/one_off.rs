//! One cell off (document 02, 2.3): stands of one origin and size, reached by different calls, that differ in one cell.

mod case;
mod check;
mod fault;
mod routes;
mod run;
mod selftest;
mod stand;
mod step;
mod tally;
mod worked;

pub use run::{STANDS, run};
pub use selftest::self_test;
