//! What a run did: calls, and comparisons by kind.

use crate::boxes::Boxes;
use crate::sheet::Tally;

#[derive(Clone, Copy)]
pub enum Kind {
    Answer,
    Header,
    List,
    Digest,
    Feed,
    Solids,
    Panels,
    Slices,
    Kept,
    Rows,
    Sums,
}

const NAMES: [&str; 11] = [
    "answers",
    "header numbers",
    "storage lists",
    "digests",
    "walks over changes",
    "walks over occupied cells",
    "panel lists",
    "panel lists by slice and claim",
    "masks and list ends",
    "sheets, all rows",
    "totals of sheets",
];

#[derive(Clone, Default)]
pub struct Counts {
    pub lists: u64,
    pub calls: u64,
    /// Calls that changed a cell.
    pub changing: u64,
    /// Calls refused.
    pub refused: u64,
    pub kinds: [u64; NAMES.len()],
    pub boxes: Boxes,
    pub sheet: Tally,
}

impl Counts {
    pub fn compared(&mut self, kind: Kind) {
        self.kinds[kind as usize] += 1;
    }

    pub fn add(&mut self, other: &Self) {
        self.lists += other.lists;
        self.calls += other.calls;
        self.changing += other.changing;
        self.refused += other.refused;
        for (mine, theirs) in self.kinds.iter_mut().zip(other.kinds) {
            *mine += theirs;
        }
        self.boxes.add(&other.boxes);
        self.sheet.add(&other.sheet);
    }

    /// Calls made on both sides: all but fills beside the stand.
    pub fn on_both(&self) -> u64 {
        self.calls - self.boxes.beside()
    }

    pub fn comparisons(&self) -> u64 {
        self.kinds.iter().sum()
    }

    pub fn print(&self) {
        println!(
            "  {} calls in {} lists: {} changed a cell, {} refused",
            self.calls, self.lists, self.changing, self.refused
        );
        self.boxes.print();
        println!("  {} comparisons:", self.comparisons());
        for (name, n) in NAMES.iter().zip(self.kinds).filter(|(_, n)| *n > 0) {
            println!("    {n:>13} {name}");
        }
        self.sheet.print();
    }
}
