//! Each fault must be found, and the calls that reach its stand shrunk to a few.

use super::fault::{self, Fault, Ours};
use super::run::{smallest, stands};
use crate::selftest::Tested;

/// Stands in which a fault must be found.
const STANDS: u64 = 100;

/// Most calls of a shrunk stand: an opening and an edit.
const MOST: usize = 2;

pub fn self_test(seed: u64) -> Tested {
    Tested::of(&fault::ALL, |fault| look_for(fault, seed))
}

fn look_for(fault: Fault, seed: u64) -> bool {
    let ours = Ours(Some(fault));
    let Some((number, (case, difference))) = stands(ours, STANDS, seed).differences.first else {
        println!("forms, {fault:?}: NOT FOUND");
        return false;
    };
    let small = smallest(&case, ours);
    let mut shown: Vec<String> = small.iter().map(ToString::to_string).collect();
    if shown.is_empty() {
        shown.push("a stand of one cell".to_string());
    }
    let short = small.len() <= MOST;
    println!(
        "forms, {fault:?}: found on stand {number} ({}), shrunk from {} calls to: {}{}",
        difference.0,
        case.calls.len(),
        shown.join("; "),
        if short { "" } else { ": TOO LONG" }
    );
    short
}
