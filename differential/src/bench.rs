//! The benchmark: the same work on both sides, in turns, best of several.

mod beside;
mod forms;
mod measuring;
mod refresh;
mod rows;
mod stand;

use std::time::Instant;

const ROUNDS: usize = 40;
/// What one measured round takes at least.
const ROUND_NANOS: u128 = 4_000_000;

const NOTES: &str = "\
Times are for one call (set, get: one cell), best of 40 rounds on each side, the sides in turns.
Stand of 48 by 48 by 48 cells; patterns of chunk_faces lie in its middle section; outside is empty.
Ours is called through the C interface, with mask and list lent and not cleared between calls.
The Rust allocates a mask for each side, and its list anew in each call (`list kept`: the caller's,
emptied between calls). Neither side's storage is cleared between calls.";

struct Row {
    name: &'static str,
    goal: f64,
    ours: f64,
    /// What ours is held against: the Rust, or another call of ours.
    other: f64,
}

/// Times of one turn on each side, the turns of a round in a row; each turn does `per` calls.
fn measure<T>(
    name: &'static str,
    goal: f64,
    per: usize,
    stand: &mut T,
    mut ours: impl FnMut(&mut T),
    mut other: impl FnMut(&mut T),
) -> Row {
    let mut best = [f64::MAX; 2];
    let turns = [turns_of(stand, &mut ours), turns_of(stand, &mut other)];
    for _ in 0..ROUNDS {
        best[0] = best[0].min(round(stand, turns[0], &mut ours));
        best[1] = best[1].min(round(stand, turns[1], &mut other));
    }
    Row {
        name,
        goal,
        ours: best[0] / per as f64,
        other: best[1] / per as f64,
    }
}

/// How many turns fill a round.
fn turns_of<T>(stand: &mut T, turn: &mut impl FnMut(&mut T)) -> usize {
    let start = Instant::now();
    let mut turns = 0;
    while start.elapsed().as_nanos() < ROUND_NANOS {
        turn(stand);
        turns += 1;
    }
    turns
}

fn round<T>(stand: &mut T, turns: usize, turn: &mut impl FnMut(&mut T)) -> f64 {
    let start = Instant::now();
    for _ in 0..turns {
        turn(stand);
    }
    start.elapsed().as_nanos() as f64 / turns as f64
}

pub fn run() {
    println!("{NOTES}\n");
    head("Rust, ns");
    rows::edits(&mut print);
    rows::reads(&mut print);
    rows::sections(&mut print);
    rows::wholes(&mut print);
    refresh::table();
    measuring::table();
    beside::table();
    forms::table();
}

/// The head of a table, with the name of what ours is held against.
fn head(other: &str) {
    println!(
        "{:<28}{:>14}{other:>14}{:>9}{:>7}",
        "call", "ours, ns", "ratio", "goal"
    );
}

fn print(row: Row) {
    let ratio = row.ours / row.other;
    let word = if ratio <= row.goal { "" } else { "  missed" };
    println!(
        "{:<28}{:>14.1}{:>14.1}{:>9.3}{:>7.2}{word}",
        row.name, row.ours, row.other, ratio, row.goal
    );
}
