//! Rows held to the panels that our own chunk_faces lists (document 02, 2.4), on storage of any contents. Our side
//! alone is called.

mod case;
mod check;
mod fault;
mod run;
mod section;
mod selftest;
mod stand;
mod tally;
mod worked;

pub use run::{STANDS, run};
pub use selftest::self_test;
