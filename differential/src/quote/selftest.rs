//! Each fault must be found, and its text shrunk to a few lines.

use super::fault;
use super::line::Line;
use super::run::{Sides, program};
use crate::selftest::Tested;

/// Texts in which a fault must be found.
const TEXTS: u64 = 5_000;

/// Most lines of a shrunk text: a card, an opening, edits, a refresh.
const MOST: usize = 8;

/// Bytes of a line that are printed.
const SHOWN: usize = 60;

pub fn self_test(seed: u64) -> Tested {
    let program = program();
    Tested::of(&fault::ALL, |fault| {
        program.clone().is_some_and(|program| {
            let fault = Some(fault);
            look_for(Sides { program, fault }, seed)
        })
    })
}

/// A line, the end of a long one left out.
fn shown(line: &Line) -> String {
    let (bytes, more) = match line.bytes.get(..SHOWN) {
        Some(first) => (first, format!(".. ({} bytes)", line.bytes.len())),
        None => (&line.bytes[..], String::new()),
    };
    bytes.escape_ascii().to_string() + &more
}

fn look_for(sides: Sides, seed: u64) -> bool {
    let name = sides.fault.map_or(String::new(), |f| format!("{f:?}"));
    let Some((number, text)) = sides.run(TEXTS, seed).differences.first else {
        println!("quote, {name}: NOT FOUND");
        return false;
    };
    let small = sides.smallest(&text);
    let short = small.lines.len() <= MOST;
    let shown: Vec<String> = small.lines.iter().map(shown).collect();
    println!(
        "quote, {name}: found in text {number}, shrunk from {} lines to: {}{}",
        text.lines.len(),
        shown.join("; "),
        if short { "" } else { ": TOO LONG" }
    );
    short
}
