//! Each fault must be found, and its stand shrunk to a few occupied slots.

use super::fault::{self, Fault, Ours};
use super::run::{by_hand, stands, told};
use crate::selftest::Tested;

/// Stands in which a fault must be found.
const STANDS: u64 = 100;

/// Most occupied slots of a shrunk stand: one, or a slice that has all the panels that it can have.
fn most(fault: Fault) -> usize {
    if fault == Fault::Full { 256 } else { 1 }
}

pub fn self_test(seed: u64) -> Tested {
    Tested::of(&fault::ALL, |fault| look_for(fault, seed))
}

fn look_for(fault: Fault, seed: u64) -> bool {
    let ours = Ours(Some(fault));
    let Err(worked) = by_hand(ours, seed).1 else {
        println!("listed, {fault:?}: NOT FOUND in the worked stands");
        return false;
    };
    let Some((number, (case, difference))) = stands(ours, STANDS, seed).differences.first else {
        println!("listed, {fault:?}: NOT FOUND");
        return false;
    };
    let (slots, small) = told(&case, ours);
    let short = slots <= most(fault);
    println!(
        "listed, {fault:?}: found in a worked stand ({}) and on stand {number} ({}), shrunk from {} slots to {slots}: {small}{}",
        worked.0,
        difference.0,
        case.occupied.len(),
        if short { "" } else { ": TOO LONG" }
    );
    short
}
