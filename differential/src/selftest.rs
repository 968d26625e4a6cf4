//! Faults put into our side: each must be found, and its list shrunk to a few calls.

use crate::calls::Call;
use crate::fault::{self, Fault};
use crate::many::run_lists;
use crate::run::{self, ALL, Options};
use crate::sheet;
use crate::shrink::shrink;
use crate::tiers::{TIERS, calls_of};

/// Lists in which a fault must be found.
const LISTS: u64 = 100;

/// How a fault is looked for.
struct Way {
    options: Options,
    make: fn(u64, u64) -> Vec<Call>,
    /// Most calls that a shrunk list may have: an opening, the set that is the trigger, a call that shows it; a sheet
    /// is opened and refreshed besides.
    most: usize,
}

fn way(fault: Fault) -> Way {
    if fault.of_sheet() {
        return Way {
            options: sheet::OPTIONS,
            make: |seed, list| sheet::calls_of(sheet::CALLS, seed, list),
            most: 4,
        };
    }
    Way {
        options: ALL,
        make: |seed, list| calls_of(&TIERS[0], seed, list),
        most: 3,
    }
}

/// How many faults were put in, and how many of them were found and shrunk.
pub struct Tested {
    pub faults: usize,
    pub found: usize,
}

impl Tested {
    pub fn of<F: Copy>(faults: &[F], look_for: impl Fn(F) -> bool) -> Self {
        Self {
            faults: faults.len(),
            found: faults.iter().filter(|fault| look_for(**fault)).count(),
        }
    }
}

pub fn run(seed: u64) -> Tested {
    Tested::of(&fault::ALL, |fault| look_for(fault, seed))
}

fn look_for(fault: Fault, seed: u64) -> bool {
    let way = way(fault);
    let options = Options {
        fault: Some(fault),
        ..way.options
    };
    let summary = run_lists(LISTS, options, |list| (way.make)(seed, list));
    let Some(found) = summary.found else {
        println!("{fault:?}: NOT FOUND");
        return false;
    };
    let small = shrink(&found.calls, |c| run::run(c, options).difference.is_some());
    let shown: Vec<String> = small.iter().map(ToString::to_string).collect();
    let short = small.len() <= way.most;
    println!(
        "{fault:?}: found ({}), shrunk from {} calls to: {}{}",
        found.difference.0,
        found.calls.len(),
        shown.join("; "),
        if short { "" } else { ": TOO LONG" }
    );
    short
}
