//! The mode: worked forms, small forms in full, random stands.

use super::case::Case;
use super::check::Check;
use super::fault::Ours;
use super::tally::{Part, Tallies};
use super::{small, worked};
use crate::calls::Call;
use crate::many::{Cases, run_cases};
use crate::pair::{Difference, Same};
use crate::shrink::shrink;
use std::time::Instant;

/// Random stands of a run.
pub const STANDS: u64 = 100_000;

pub type Summary = Cases<Case, Tallies>;

/// Random stands, each stored, loaded and damaged; stops soon after a difference.
pub fn stands(ours: Ours, stands: u64, seed: u64) -> Summary {
    let run = |number| {
        let case = Case::make(seed, number);
        let (tally, difference) = case.run(ours);
        (case, tally, difference)
    };
    run_cases(stands, run, Tallies::add)
}

/// The case with as few and as small calls as still differ.
pub fn smallest(case: &Case, ours: Ours) -> Vec<Call> {
    shrink(&case.calls, |calls| case.with(calls).run(ours).1.is_some())
}

type Work = fn(&mut Check) -> Same;

const FIXED: [(Part, Work); 3] = [
    (Part::Worked, worked::run),
    (Part::Prefixes, small::prefixes),
    (Part::Bytes, small::changes),
];

/// The mode: false where a form differs, or where the forms lack something.
pub fn run(count: u64, seed: u64) -> bool {
    println!("seed {seed}");
    let start = Instant::now();
    let mut all = Tallies::default();
    let mut differences = 0;
    for (part, work) in FIXED {
        let mut check = Check::new(Ours::default(), part);
        let same = work(&mut check);
        check.tallies.print_part(part);
        all.add(&check.tallies);
        if let Err(difference) = same {
            differences += 1;
            println!("  DIFFERENCE: {}", difference.0);
        }
    }
    let found = stands(Ours::default(), count, seed);
    for part in [Part::Stored, Part::Loaded, Part::Damaged] {
        found.tally.print_part(part);
    }
    found.tally.print_harms();
    all.add(&found.tally);
    differences += found.differences.count;
    if let Some((number, (case, difference))) = &found.differences.first {
        print(*number, case, difference, seed);
    }
    println!("all ({:.1} s)", start.elapsed().as_secs_f64());
    // A run that a difference stopped shows less.
    let passed = differences == 0 && all.is_whole();
    all.end(differences);
    passed
}

fn print(number: u64, case: &Case, difference: &Difference, seed: u64) {
    println!(
        "  DIFFERENCE on stand {number}, seed {seed}: {}",
        difference.0
    );
    println!("  smallest list found:");
    for call in smallest(case, Ours::default()) {
        println!("    {call}");
    }
}
