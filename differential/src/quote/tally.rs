//! What the texts held, up to the first bad line of each.

use super::bad::FORMS;
use super::line::Says;
use super::pen::MARKS;
use super::text::Text;
use crate::boxes::Boxes;
use crate::trial::call::NAMES;
use crate::trial::program::Played;
use crate::trial::tally::{Counts, count, listed, sum};
use std::collections::BTreeSet;

const BREAKS_OFF: &str = "a last line without an end";

type Names = Counts<&'static str>;

#[derive(Default)]
pub struct Tally {
    texts: u64,
    /// Lines that say nothing.
    nothing: u64,
    calls: Names,
    /// Bad lines, by what the program prints of them.
    bad: Names,
    /// What is unusual in the lines, the forms of bad ones among it.
    marks: Names,
    boxes: Boxes,
    printed: u64,
}

impl Tally {
    /// A text, and what is due of it.
    pub fn add(&mut self, text: &Text, due: &Played) {
        self.texts += 1;
        self.printed += due.text.lines().count() as u64;
        self.boxes.add(&due.tally.boxes);
        for line in text.read() {
            match line.says {
                Says::Nothing => self.nothing += 1,
                Says::Call(call) => count(&mut self.calls, NAMES[usize::from(call.kind()) - 1]),
                Says::Bad(bad) => count(&mut self.bad, bad.text()),
            }
            for mark in &line.marks {
                count(&mut self.marks, mark);
            }
        }
        if text.breaks_off() {
            count(&mut self.marks, BREAKS_OFF);
        }
    }

    /// Whether all has occurred that a run must show; prints what has not.
    pub fn is_whole(&self) -> bool {
        let calls = NAMES.iter().filter(|n| !self.calls.contains_key(*n));
        let faults = FORMS.iter().map(|(_, form)| form.bad().text());
        let faults = faults.filter(|t| !self.bad.contains_key(t));
        let marks = FORMS.iter().map(|f| f.0).chain(MARKS);
        let marks = marks.chain([BREAKS_OFF]);
        let marks = marks.filter(|m| !self.marks.contains_key(m));
        let missing = calls.copied().chain(faults).chain(marks);
        let missing: BTreeSet<&str> = missing.chain(self.boxes.missing()).collect();
        for what in &missing {
            println!("  never: {what}");
        }
        missing.is_empty()
    }

    fn lines(&self) -> u64 {
        self.nothing + sum(&self.calls) + sum(&self.bad)
    }

    pub fn print(&self) {
        println!("  calls: {}", listed(&self.calls));
        self.boxes.print();
        println!("  lines that say nothing: {}", self.nothing);
        println!("  bad lines: {}", listed(&self.bad));
        let of = |bad: bool| {
            let is_form = |m: &str| FORMS.iter().any(|f| f.0 == m);
            let kept = self.marks.iter().filter(|(m, _)| is_form(m) == bad);
            listed(&kept.map(|(m, n)| (*m, *n)).collect::<Names>())
        };
        println!("  bad lines by form: {}", of(true));
        println!("  lines with: {}", of(false));
    }

    /// The last line.
    pub fn end(&self, differences: u64) {
        println!(
            "{} texts, {} lines read, {} lines compared, {differences} differences",
            self.texts,
            self.lines(),
            self.printed
        );
    }
}
