//! The ways to the second stand: other calls that end in the first one's cells, but for one.

use super::check::{Change, Check, cells_of};
use super::stand::Stand;
use super::step::{self, Step, another, any_finish, set};
use crate::calls::{Call, Maker, cell_of};
use crate::ffi::{Cell, Extent};
use crate::model;
use crate::ours::Storage;
use crate::pair::Difference;
use crate::rng::Rng;

/// What the second stand must hold, and what its calls are made from.
pub struct Goal<'a> {
    maker: &'a Maker,
    /// The size that an opening is asked for: one below 1 counts as 1.
    asked: Extent,
    one: &'a Stand,
    /// The first stand's calls.
    first: &'a [Step],
    change: Change,
    /// By storage index.
    finishes: Vec<u16>,
}

/// What a way begins with.
#[derive(Clone, Copy, PartialEq)]
pub enum Start {
    Fresh,
    /// The first stand's form, loaded.
    Form,
}

/// A way's name, its start, and the calls after it.
pub type Route = (&'static str, Start, fn(&Goal, &mut Rng) -> Vec<Step>);

pub const ROUTES: [Route; 6] = [
    ("its form loaded and a set", Start::Form, one_set),
    ("the same calls and a set", Start::Fresh, again),
    ("shuffled sets with detours", Start::Fresh, shuffled),
    ("sets in descending order", Start::Fresh, descending),
    ("filled whole and set", Start::Fresh, carved),
    ("runs filled", Start::Fresh, runs),
];

impl<'a> Goal<'a> {
    /// The first stand's cells, read one by one, and the change.
    pub fn new(
        maker: &'a Maker,
        asked: Extent,
        one: &'a Stand,
        first: &'a [Step],
        change: Change,
    ) -> Self {
        let mut goal = Self {
            maker,
            asked,
            one,
            first,
            change,
            finishes: vec![0; one.storage.cells.len()],
        };
        for cell in cells_of(one.volume) {
            if let Some(slot) = model::slot(one.volume, cell) {
                goal.finishes[slot] = one.get(cell).value as u16;
            }
        }
        if let Some(slot) = model::slot(one.volume, change.cell) {
            goal.finishes[slot] = change.to;
        }
        goal
    }

    /// The finish that a cell must have.
    fn finish(&self, cell: Cell) -> u16 {
        model::slot(self.one.volume, cell).map_or(0, |slot| self.finishes[slot])
    }

    /// The cells to be occupied, in the order of a fill.
    fn occupied(&self) -> Vec<Cell> {
        let mut cells = cells_of(self.one.volume);
        cells.retain(|cell| self.finish(*cell) != 0);
        cells
    }

    /// The stand by a way, refused calls and loads among its calls.
    pub fn reach(
        &self,
        (name, start, make): Route,
        check: &mut Check,
        rng: &mut Rng,
    ) -> Result<Stand, Difference> {
        check.tally.routed(name);
        let mut steps = make(self, rng);
        for _ in 0..1 + rng.below(3) {
            put_in(&mut steps, step::refused(self.maker, rng), rng);
        }
        if rng.chance(15) {
            put_in(&mut steps, Step::Reload(rng.next()), rng);
        }
        let lists = lists(self.one.storage.hashes.len(), rng);
        let mut two = match start {
            Start::Form => self.one.reloaded(check, lists)?,
            Start::Fresh => Stand::opened(check, self.maker.origin, self.asked, lists)?,
        };
        if start == Start::Fresh && rng.chance(10) {
            let others = step::some(1 + rng.below(8), self.maker, rng);
            steps.splice(0..0, others.into_iter().chain([Step::Anew]));
        }
        for step in &steps {
            two.make(step, check)?;
        }
        Ok(two)
    }
}

/// Lists for a number of sections: of zeros, of one number each, or of anything.
pub fn lists(sections: usize, rng: &mut Rng) -> Storage {
    match rng.below(3) {
        0 => Storage::zeros(sections),
        1 => Storage::dirty(sections),
        _ => Storage::any(sections, rng),
    }
}

/// Puts a call somewhere between the others.
pub fn put_in(steps: &mut Vec<Step>, step: Step, rng: &mut Rng) {
    steps.insert(rng.below(steps.len() as u64 + 1) as usize, step);
}

/// One set, of the cell that changes.
fn one_set(goal: &Goal, rng: &mut Rng) -> Vec<Step> {
    vec![set(goal.change.cell, goal.change.to, rng)]
}

/// All that the first stand was asked, and the cell that changes.
fn again(goal: &Goal, rng: &mut Rng) -> Vec<Step> {
    [goal.first, &one_set(goal, rng)].concat()
}

/// Occupied cells from the last to the first.
fn descending(goal: &Goal, rng: &mut Rng) -> Vec<Step> {
    let cells = goal.occupied().into_iter().rev();
    cells.map(|c| set(c, goal.finish(c), rng)).collect()
}

/// Occupied cells in any order, one in five by way of another finish, and a detour between them.
fn shuffled(goal: &Goal, rng: &mut Rng) -> Vec<Step> {
    let mut cells = goal.occupied();
    rng.shuffle(&mut cells);
    let over = rng.below(cells.len() as u64 + 1) as usize;
    let mut steps = Vec::new();
    for (i, cell) in cells.iter().enumerate() {
        if i == over {
            detour(goal, &mut steps, rng);
        }
        let finish = goal.finish(*cell);
        if rng.chance(20) {
            steps.push(set(*cell, another(finish, rng), rng));
        }
        steps.push(set(*cell, finish, rng));
    }
    if over == cells.len() {
        detour(goal, &mut steps, rng);
    }
    steps
}

/// A box filled over and mended cell by cell, and cells set and set back.
fn detour(goal: &Goal, steps: &mut Vec<Step>, rng: &mut Rng) {
    let (from, to) = goal.maker.corners(rng);
    let mut cells = model::box_cells(goal.one.volume, from, to);
    rng.shuffle(&mut cells);
    steps.push(Step::Call(Call::Fill(from, to, any_finish(rng))));
    steps.extend(cells.iter().map(|c| set(*c, goal.finish(*c), rng)));
    for _ in 0..rng.below(4) {
        let cell = step::inside(goal.maker, rng);
        let finish = goal.finish(cell);
        steps.push(set(cell, another(finish, rng), rng));
        steps.push(set(cell, finish, rng));
    }
}

/// All cells with one finish, then each that has another.
fn carved(goal: &Goal, rng: &mut Rng) -> Vec<Step> {
    let [low, high] = [i32::MIN, i32::MAX].map(|n| cell_of([n; 3]));
    let finish = any_finish(rng);
    let mut steps = vec![Step::Call(Call::Fill(low, high, finish))];
    let mut cells = cells_of(goal.one.volume);
    cells.retain(|cell| goal.finish(*cell) != finish);
    steps.extend(cells.iter().map(|c| set(*c, goal.finish(*c), rng)));
    steps
}

/// Runs of one finish along x, in any order, a fill for each.
fn runs(goal: &Goal, rng: &mut Rng) -> Vec<Step> {
    let cells = goal.occupied();
    let joined = |a: &Cell, b: &Cell| {
        (a.y, a.z) == (b.y, b.z) && b.x - a.x == 1 && goal.finish(*a) == goal.finish(*b)
    };
    let mut steps: Vec<Step> = cells
        .chunk_by(joined)
        .map(|run| (run[0], run[run.len() - 1]))
        .map(|(from, to)| Step::Call(Call::Fill(to, from, goal.finish(from))))
        .collect();
    rng.shuffle(&mut steps);
    steps
}
