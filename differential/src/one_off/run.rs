//! The mode: worked pairs, then random stands.

use super::case::Case;
use super::check::Check;
use super::fault::Ours;
use super::step::Step;
use super::tally::Tally;
use super::worked;
use crate::many::{Cases, run_cases};
use crate::pair::{Difference, Same};
use crate::shrink::fewest;
use std::time::Instant;

/// Random stands of a run.
pub const STANDS: u64 = 10_000;

pub type Summary = Cases<Case, Tally>;

/// Random stands, each beside one that differs in a cell; stops soon after a difference.
pub fn stands(ours: Ours, count: u64, seed: u64) -> Summary {
    let run = |number| {
        let case = Case::make(seed, number);
        let (tally, difference) = case.run(ours);
        (case, tally, difference)
    };
    run_cases(count, run, Tally::add)
}

/// As few calls to the first stand as still differ.
pub fn smallest(case: &Case, ours: Ours) -> Vec<Step> {
    fewest(&case.first, |first| case.with(first).run(ours).1.is_some())
}

/// The mode: false where something differs, or where the stands lack something.
pub fn run(count: u64, seed: u64) -> bool {
    println!("seed {seed}");
    let start = Instant::now();
    let mut check = Check::new(Ours::default());
    let same = worked::run(&mut check);
    let (pairs, comparisons) = (worked::PAIRS.len(), check.tally.comparisons());
    println!("{pairs} worked pairs, {comparisons} comparisons");
    let count = if same.is_ok() { count } else { 0 };
    let found = stands(Ours::default(), count, seed);
    found.tally.print();
    let differences = found.differences.count + u64::from(same.is_err());
    print(&same, &found, seed);
    println!("all ({:.1} s)", start.elapsed().as_secs_f64());
    // A run that a difference stopped shows less.
    let passed = differences == 0 && found.tally.is_whole();
    found.tally.end(comparisons, differences);
    passed
}

/// The difference with its seed, its number and the fewest calls that still show one.
fn print(worked: &Same, found: &Summary, seed: u64) {
    if let Err(Difference(text)) = worked {
        println!("  DIFFERENCE: {text}");
    }
    let Some((number, (case, Difference(text)))) = &found.differences.first else {
        return;
    };
    println!("  DIFFERENCE on stand {number}, seed {seed}: {text}");
    println!("  fewest calls to the first stand:");
    println!("    {}", case.opening());
    for step in smallest(case, Ours::default()) {
        println!("    {step}");
    }
}
