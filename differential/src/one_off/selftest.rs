//! Each fault must be found, and the calls to its first stand shrunk to a few.

use super::fault::{self, Fault, Ours};
use super::run::{smallest, stands};
use crate::selftest::Tested;

/// Stands in which a fault must be found.
const STANDS: u64 = 100;

/// Most calls of a shrunk list: an opening and an edit.
const MOST: usize = 2;

/// How many faults were put in, and how many were found and shrunk.
pub fn self_test(seed: u64) -> Tested {
    Tested::of(&fault::ALL, |fault| look_for(fault, seed))
}

/// Whether a fault is found, and shrunk to a few calls.
fn look_for(fault: Fault, seed: u64) -> bool {
    let ours = Ours(Some(fault));
    let Some((number, (case, difference))) = stands(ours, STANDS, seed).differences.first else {
        println!("one off, {fault:?}: NOT FOUND");
        return false;
    };
    let small = smallest(&case, ours);
    let mut shown = vec![case.opening().to_string()];
    shown.extend(small.iter().map(ToString::to_string));
    let short = shown.len() <= MOST;
    println!(
        "one off, {fault:?}: found on stand {number} ({}), shrunk from {} calls to: {}{}",
        difference.0,
        case.first.len() + 1,
        shown.join("; "),
        if short { "" } else { ": TOO LONG" }
    );
    short
}
