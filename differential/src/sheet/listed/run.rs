//! The part of the run: worked stands, then random ones.

use super::case::Case;
use super::check::Check;
use super::fault::Ours;
use super::stand::Slot;
use super::tally::Tally;
use super::worked;
use crate::many::{Cases, run_cases};
use crate::pair::Same;
use crate::report::Report;
use crate::rng::Rng;
use crate::shrink::fewest;
use std::time::Instant;

/// Random stands in the whole run.
pub const STANDS: u64 = 3_000;

/// Random stands at least, so that they show what they must.
const LEAST: u64 = 100;

/// Slots of a smallest stand that are shown.
const SHOWN: usize = 4;

pub type Summary = Cases<Case, Tally>;

/// Random stands of any contents; stops soon after a difference.
pub fn stands(ours: Ours, count: u64, seed: u64) -> Summary {
    let run = |number| {
        let case = Case::make(seed, number);
        let (tally, difference) = case.run(ours);
        (case, tally, difference)
    };
    run_cases(count, run, Tally::add)
}

/// The worked stands: what was done, and the difference if there is one.
pub fn by_hand(ours: Ours, seed: u64) -> (Tally, Same) {
    let mut check = Check::new(ours, Rng::of(seed, 43, 0));
    let same = worked::run(&mut check);
    (check.tally, same)
}

/// As few occupied slots as still differ.
fn smallest(case: &Case, ours: Ours) -> Vec<Slot> {
    fewest(&case.occupied, |slots| {
        case.with(slots).run(ours).1.is_some()
    })
}

/// Calls on our side alone: calls and comparisons are counted apart.
pub fn run(count: u64, seed: u64, report: &mut Report) {
    let start = Instant::now();
    let (worked, same) = by_hand(Ours::default(), seed);
    let found = stands(Ours::default(), count.max(LEAST), seed);
    println!(
        "rows held to the panels that chunk_faces lists, ours alone, counted apart ({:.1} s)",
        start.elapsed().as_secs_f64()
    );
    for (name, tally) in [("worked stands", &worked), ("random stands", &found.tally)] {
        tally.print(name);
    }
    if let Err(difference) = &same {
        report.differs("a worked stand", difference);
    }
    if let Some((number, (case, difference))) = &found.differences.first {
        report.differs(&format!("stand {number}"), difference);
        println!(
            "  fewest occupied slots found: {}",
            told(case, Ours::default()).1
        );
    }
    report.must_show("the worked stands", &worked.missing());
    report.must_show("the random stands", &found.tally.missing());
}

/// The smallest stand found: its occupied slots, and its opening with them in words.
pub fn told(case: &Case, ours: Ours) -> (usize, String) {
    let slots = smallest(case, ours);
    let mut text = case.opening().to_string();
    for (slot, finish) in slots.iter().take(SHOWN) {
        let (section, within) = (slot / 4_096, slot % 4_096);
        text += &format!("; section {section}, slot {within}: {finish}");
    }
    if slots.len() > SHOWN {
        text += &format!("; and {} more", slots.len() - SHOWN);
    }
    (slots.len(), text)
}
