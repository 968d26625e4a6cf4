//! What a run prints: counts, differences with their smallest lists, the Rust's panics.

use crate::boxes::Boxes;
use crate::calls::Call;
use crate::counts::Counts;
use crate::many::Summary;
use crate::pair::{Difference, Panic};
use crate::run::{self, ALL, Options};
use crate::shrink::shrink;
use std::collections::BTreeMap;
use std::fmt::Display;
use std::time::Instant;

pub struct Report {
    pub total: Counts,
    pub differences: u64,
    /// Nothing is missing that the run must show.
    whole: bool,
    seed: u64,
    start: Instant,
    panics: BTreeMap<Panic, (u64, Vec<Call>)>,
}

impl Report {
    pub fn new(seed: u64) -> Self {
        Self {
            total: Counts::default(),
            differences: 0,
            whole: true,
            seed,
            start: Instant::now(),
            panics: BTreeMap::new(),
        }
    }

    /// A part of the run, its time, and what it found; the boxes that it filled.
    pub fn part(&mut self, name: &str, work: impl FnOnce() -> Summary) -> Boxes {
        let start = Instant::now();
        let summary = work();
        println!("{name} ({:.1} s)", start.elapsed().as_secs_f64());
        summary.counts.print();
        self.total.add(&summary.counts);
        if let Some(found) = summary.found {
            self.differs(&format!("list {}", found.list), &found.difference);
            let options = found.options.closely();
            let small = shrink(&found.calls, |c| run::run(c, options).difference.is_some());
            print_list(&small);
            if let Some(Difference(text)) = run::run(&small, options).difference {
                println!("    {text}");
            }
        }
        for (panic, (count, calls)) in summary.panics {
            let entry = self.panics.entry(panic);
            entry.or_insert((0, calls)).0 += count;
        }
        summary.counts.boxes
    }

    /// What a place must show and has not; a run that a difference stopped shows less.
    pub fn must_show<T: Display>(&mut self, place: &str, missing: &[T]) {
        if self.differences > 0 {
            return;
        }
        for what in missing {
            println!("  never in {place}: {what}");
            self.whole = false;
        }
    }

    /// Each place where the Rust panicked, with the smallest list found that shows it.
    pub fn panics(&self) {
        let options = Options { catch: true, ..ALL };
        println!("panics of the Rust: {} places", self.panics.len());
        for (panic, (count, calls)) in &self.panics {
            println!("  {}, {count} times: {}", panic.function, panic.place);
            let small = shrink(calls, |c| run::run(c, options).panics.contains(panic));
            print_list(&small);
        }
    }

    pub fn differs(&mut self, place: &str, difference: &Difference) {
        self.differences += 1;
        println!(
            "  DIFFERENCE in {place}, seed {}: {}",
            self.seed, difference.0
        );
    }

    /// The last lines: true where nothing differs, nothing is missing and a third of the calls changed a cell.
    pub fn end(&self) -> bool {
        let t = &self.total;
        let share = t.changing as f64 / t.calls.max(1) as f64;
        println!("all ({:.1} s)", self.start.elapsed().as_secs_f64());
        t.print();
        println!("  a share of {share:.3} of the calls changed a cell");
        println!(
            "{} calls, {} comparisons, {} differences",
            t.on_both(),
            t.comparisons(),
            self.differences
        );
        self.differences == 0 && self.whole && t.changing * 3 >= t.calls
    }
}

fn print_list(calls: &[Call]) {
    println!("  smallest list found:");
    for call in calls {
        println!("    {call}");
    }
}
