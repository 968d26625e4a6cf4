//! The sheet's part of the run.

use super::list::{calls_of, lists};
use crate::many::{Summary, run_lists};
use crate::run::{ALL, NEVER, Options};

/// Calls of this part in the whole run.
pub const CALLS: u64 = 200_000;

/// The stand itself is compared after the last call of a list alone, panels by their rows.
pub const OPTIONS: Options = Options {
    mesh_every: NEVER,
    each: false,
    ..ALL
};

pub fn run(calls: u64, seed: u64) -> Summary {
    run_lists(lists(calls), OPTIONS, |list| calls_of(calls, seed, list))
}
