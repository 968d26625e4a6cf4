//! What the scripts did, as the reference read them.

use super::call::{BODIES, NAMES, is_known};
use super::script::KINDS;
use crate::boxes::Boxes;
use std::collections::BTreeMap;

/// The numbers by which a call can be refused.
const REFUSALS: [u32; 6] = [1, 2, 3, 4, 5, 12];

pub type Counts<K> = BTreeMap<K, u64>;

#[derive(Default)]
pub struct Tally {
    scripts: Counts<&'static str>,
    calls: Counts<&'static str>,
    refused: Counts<u32>,
    /// Accepted refreshes, by the sections measured.
    prices: Counts<&'static str>,
    /// Accepted openings, by sections.
    opened: Counts<usize>,
    /// Those of a stand after another.
    anew: u64,
    /// Accepted sets and fills, and those that changed a cell.
    edits: u64,
    changing: u64,
    /// Those of accepted fills.
    pub boxes: Boxes,
    unknown: u64,
    /// Scripts cut short, by kind of call and bytes of its body that are there.
    short: Counts<(u8, usize)>,
    lines: u64,
}

impl Tally {
    pub fn made(&mut self, kind: &'static str, lines: usize) {
        count(&mut self.scripts, kind);
        self.lines += lines as u64;
    }

    pub fn called(&mut self, kind: u8, code: u32) {
        count(&mut self.calls, NAMES[usize::from(kind) - 1]);
        if code != 0 {
            count(&mut self.refused, code);
        }
    }

    pub fn opened(&mut self, anew: bool, sections: usize) {
        count(&mut self.opened, sections);
        self.anew += u64::from(anew);
    }

    pub fn edited(&mut self, changed: bool) {
        self.edits += 1;
        self.changing += u64::from(changed);
    }

    pub fn priced(&mut self, measured: usize, sections: usize) {
        let class = match measured {
            0 => "none",
            n if n == sections => "all",
            _ => "some",
        };
        count(&mut self.prices, class);
    }

    pub fn broken(&mut self, rest: &[u8]) {
        if is_known(rest[0]) {
            count(&mut self.short, (rest[0], rest.len() - 1));
        } else {
            self.unknown += 1;
        }
    }

    pub fn add(&mut self, other: &Self) {
        merge(&mut self.scripts, &other.scripts);
        merge(&mut self.calls, &other.calls);
        merge(&mut self.refused, &other.refused);
        merge(&mut self.prices, &other.prices);
        merge(&mut self.opened, &other.opened);
        merge(&mut self.short, &other.short);
        self.anew += other.anew;
        self.edits += other.edits;
        self.changing += other.changing;
        self.boxes.add(&other.boxes);
        self.unknown += other.unknown;
        self.lines += other.lines;
    }

    /// Whether all has occurred that a run must show; prints what has not.
    pub fn is_whole(&self) -> bool {
        let missing = self.missing();
        for what in &missing {
            println!("  too few: {what}");
        }
        missing.is_empty()
    }

    fn missing(&self) -> Vec<String> {
        let name = |what: &str, key: &str| format!("{what} {key}");
        let kinds = KINDS.iter().filter(|k| !self.scripts.contains_key(*k));
        let calls = NAMES.iter().filter(|k| !self.calls.contains_key(*k));
        let codes = REFUSALS.iter().filter(|k| !self.refused.contains_key(k));
        let mut all: Vec<String> = kinds.map(|k| name("scripts:", k)).collect();
        all.extend(calls.map(|k| name("calls:", k)));
        all.extend(codes.map(|k| name("refusal", &k.to_string())));
        all.extend(self.boxes.missing().iter().map(ToString::to_string));
        let few = self.changing * 3 < sum(&self.calls);
        let others = [
            (self.prices.len() < 3, "refreshes by sections measured"),
            (self.opened.len() < 4, "stands by sections"),
            (self.anew == 0, "stands after another"),
            (self.unknown == 0, "unknown kinds"),
            (self.short.len() < places(), "places to cut a script short"),
            (few, "calls that change a cell, below a third"),
        ];
        let others = others.into_iter().filter(|o| o.0);
        all.extend(others.map(|o| o.1.to_string()));
        all
    }

    pub fn print(&self) {
        let calls = sum(&self.calls);
        println!("  scripts: {}", listed(&self.scripts));
        println!("  calls: {}", listed(&self.calls));
        println!("  refusals by number: {}", listed(&self.refused));
        let (prices, by) = (sum(&self.prices), listed(&self.prices));
        println!("  {prices} price lines, by sections measured: {by}");
        let (again, by) = (self.anew, listed(&self.opened));
        println!("  stands opened, by sections: {by}; {again} of them after another");
        let share = self.changing as f64 / calls.max(1) as f64;
        let (edits, changing) = (self.edits, self.changing);
        println!("  {edits} edits accepted, {changing} changed a cell: {share:.3} of the calls");
        self.boxes.print();
        let (short, at) = (sum(&self.short), self.short.len());
        let (unknown, of) = (self.unknown, places());
        println!(
            "  broken: {unknown} by an unknown kind, {short} cut short, at {at} of {of} places"
        );
    }

    /// The last line.
    pub fn end(&self, differences: u64) {
        println!(
            "{} scripts, {} calls, {} lines compared, {differences} differences",
            sum(&self.scripts),
            sum(&self.calls),
            self.lines
        );
    }
}

/// Places within a body where a script can end.
fn places() -> usize {
    BODIES.iter().sum()
}

pub fn count<K: Ord>(counts: &mut Counts<K>, key: K) {
    *counts.entry(key).or_default() += 1;
}

pub fn merge<K: Ord + Copy>(into: &mut Counts<K>, from: &Counts<K>) {
    for (key, n) in from {
        *into.entry(*key).or_default() += n;
    }
}

pub fn sum<K>(counts: &Counts<K>) -> u64 {
    counts.values().sum()
}

pub fn listed<K: ToString>(counts: &Counts<K>) -> String {
    let by = counts
        .iter()
        .map(|(k, n)| format!("{}: {n}", k.to_string()));
    by.collect::<Vec<_>>().join(", ")
}
