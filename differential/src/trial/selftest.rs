//! Each fault must be found, and its script shrunk to a few calls.

use super::fault;
use super::run::{Sides, program, text};
use crate::selftest::Tested;

/// Scripts in which a fault must be found.
const SCRIPTS: u64 = 5_000;

/// Most calls of a shrunk script: a card, an opening, and three refreshes with edits before each.
const MOST: usize = 10;

pub fn self_test(seed: u64) -> Tested {
    let program = program();
    Tested::of(&fault::ALL, |fault| {
        program.clone().is_some_and(|program| {
            let fault = Some(fault);
            look_for(Sides { program, fault }, seed)
        })
    })
}

fn look_for(sides: Sides, seed: u64) -> bool {
    let name = sides.fault.map_or(String::new(), |f| format!("{f:?}"));
    let Some((number, script)) = sides.run(SCRIPTS, seed).differences.first else {
        println!("trial, {name}: NOT FOUND");
        return false;
    };
    let small = text(&sides.smallest(&script.bytes));
    let short = small.len() <= MOST;
    println!(
        "trial, {name}: found in script {number}, shrunk from {} lines to: {}{}",
        text(&script.bytes).len(),
        small.join("; "),
        if short { "" } else { ": TOO LONG" }
    );
    short
}
