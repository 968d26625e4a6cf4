//! What this part did: stands, openings and refreshes by number, rows and panels compared.

use crate::counts::Counts;
use crate::trial::tally::{Counts as By, count, listed, merge};

/// The numbers that each call must have answered, 0 for accepted.
const ANSWERS: [(&str, &[u32]); 2] = [("openings", &[0, 10, 12]), ("refreshes", &[0, 8, 10, 12])];
/// Accepted refreshes by sections measured.
const MEASURED: [&str; 3] = ["none", "some", "all"];
/// The lists lent to chunk_faces.
const LISTS: [&str; 3] = ["just long enough", "longer", "one number short"];

#[derive(Default)]
pub struct Tally {
    /// The comparisons.
    pub counts: Counts,
    stands: u64,
    sections: u64,
    codes: [By<u32>; 2],
    measured: By<&'static str>,
    lists: [u64; LISTS.len()],
    rows: u64,
    kept: u64,
    panels: u64,
    /// The most panels of a row, and of a slice.
    most: [u64; 2],
}

impl Tally {
    pub fn stand(&mut self, sections: usize) {
        self.stands += 1;
        self.sections += sections as u64;
    }

    pub fn answered(&mut self, refresh: bool, code: u32) {
        count(&mut self.codes[usize::from(refresh)], code);
    }

    /// An accepted call measured so many of the sections.
    pub fn measured(&mut self, refresh: bool, measured: usize, sections: usize) {
        self.kept += (sections - measured) as u64;
        let class = match measured {
            0 => 0,
            n if n == sections => 2,
            _ => 1,
        };
        if refresh {
            count(&mut self.measured, MEASURED[class]);
        }
    }

    /// A list lent to chunk_faces, by its number in `LISTS`.
    pub fn lent(&mut self, list: usize) {
        self.lists[list] += 1;
    }

    /// A row that is the sums over its panels, with the most of them in a slice.
    pub fn row(&mut self, panels: u64, in_slice: usize) {
        self.rows += 1;
        self.panels += panels;
        self.raise([panels, in_slice as u64]);
    }

    fn raise(&mut self, most: [u64; 2]) {
        for (mine, other) in self.most.iter_mut().zip(most) {
            *mine = other.max(*mine);
        }
    }

    pub fn add(&mut self, other: &Self) {
        self.counts.add(&other.counts);
        self.stands += other.stands;
        self.sections += other.sections;
        for (mine, theirs) in self.codes.iter_mut().zip(&other.codes) {
            merge(mine, theirs);
        }
        merge(&mut self.measured, &other.measured);
        for (mine, theirs) in self.lists.iter_mut().zip(other.lists) {
            *mine += theirs;
        }
        self.rows += other.rows;
        self.kept += other.kept;
        self.panels += other.panels;
        self.raise(other.most);
    }

    pub fn print(&self, name: &str) {
        println!("  {} {name} of {} sections", self.stands, self.sections);
        for ((call, _), codes) in ANSWERS.iter().zip(&self.codes) {
            println!("    {call} by code (0 accepted): {}", listed(codes));
        }
        println!(
            "    accepted refreshes by sections measured: {}",
            listed(&self.measured)
        );
        let (rows, kept, panels) = (self.rows, self.kept, self.panels);
        println!("    {rows} rows measured, {panels} panels summed; {kept} rows kept");
        let [row, slice] = self.most;
        println!("    most panels of a row: {row}, of a slice: {slice}");
        let lists = LISTS.iter().zip(self.lists);
        let by: Vec<String> = lists.map(|(name, n)| format!("{name}: {n}")).collect();
        println!("    lists lent to chunk_faces: {}", by.join(", "));
        println!("    {} comparisons", self.counts.comparisons());
    }

    /// What this part must show and has not.
    pub fn missing(&self) -> Vec<String> {
        let mut missing = Vec::new();
        for ((call, wanted), codes) in ANSWERS.iter().zip(&self.codes) {
            let lacks = wanted.iter().filter(|code| !codes.contains_key(code));
            missing.extend(lacks.map(|code| format!("{call} answered {code}")));
        }
        let never = MEASURED.iter().filter(|k| !self.measured.contains_key(*k));
        missing.extend(never.map(|k| format!("refreshes that measured {k}")));
        let lists = LISTS.iter().zip(self.lists).filter(|(_, n)| *n == 0);
        missing.extend(lists.map(|(name, _)| format!("a list {name}")));
        let sums = [
            (self.rows, "rows measured"),
            (self.panels, "panels"),
            (self.kept, "rows kept"),
        ];
        let none = sums.iter().filter(|s| s.0 == 0);
        missing.extend(none.map(|s| s.1.to_string()));
        missing
    }
}
