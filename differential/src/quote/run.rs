//! Many texts, each given to the program; the reference makes the calls that its lines were made from.

use super::fault::Fault;
use super::tally::Tally;
use super::text::{Text, make};
use crate::differences::Differences;
use crate::many::while_same;
use crate::shrink::fewest;
use crate::trial::process::{self, Shown};
use crate::trial::program::{Played, play};
use std::path::PathBuf;
use std::sync::Mutex;
use std::time::Instant;

/// Texts of a run.
pub const TEXTS: u64 = 100_000;

pub struct Sides {
    pub program: PathBuf,
    pub fault: Option<Fault>,
}

#[derive(Default)]
pub struct Summary {
    tally: Tally,
    pub differences: Differences<Text>,
}

impl Sides {
    fn program_shows(&self, text: &Text) -> Shown {
        let taken = self.fault.map(|fault| fault.taken(text));
        process::run(&self.program, &taken.as_ref().unwrap_or(text).bytes())
    }

    /// What is due, and whether the program shows it.
    fn compare(&self, text: &Text) -> (Played, bool) {
        let due = due(text);
        let same = self.program_shows(text) == Shown::due(&due.text);
        (due, same)
    }

    pub fn run(&self, texts: u64, seed: u64) -> Summary {
        let summary = Mutex::new(Summary::default());
        while_same(texts, |number| {
            let text = make(seed, number);
            let (due, same) = self.compare(&text);
            let mut all = summary.lock().expect("no thread panicked");
            all.tally.add(&text, &due);
            if !same {
                all.differences.add(number, text);
            }
            same
        });
        summary.into_inner().expect("no thread panicked")
    }

    /// The text with as few lines as still differ.
    pub fn smallest(&self, text: &Text) -> Text {
        let ended = text.ended;
        let of = |lines: &[_]| Text {
            lines: lines.to_vec(),
            ended,
        };
        of(&fewest(&text.lines, |lines| !self.compare(&of(lines)).1))
    }

    fn print(&self, number: u64, found: &Text, seed: u64) {
        println!("  DIFFERENCE in text {number}, seed {seed}; smallest text found:");
        let text = self.smallest(found);
        for line in &text.lines {
            println!("    {}", line.bytes.escape_ascii());
        }
        if !text.ended {
            println!("  the last line has no end");
        }
        self.program_shows(&text).print("program");
        Shown::due(&due(&text).text).print("reference");
    }
}

/// What the program must print: the lines of the calls before the first bad line, then that line's fault.
fn due(text: &Text) -> Played {
    let script: Vec<u8> = text.calls().flat_map(|c| c.bytes()).collect();
    let mut due = play(&script, None);
    if let Some((at, bad)) = text.bad() {
        due.text += &format!("line {}: {}\n", at + 1, bad.text());
    }
    due
}

pub fn program() -> Option<PathBuf> {
    process::program("quote", "STAND_QUOTE")
}

/// The mode: false where a text differs, or where the texts lack something.
pub fn run(texts: u64, seed: u64) -> bool {
    let Some(program) = program() else {
        return false;
    };
    println!("seed {seed}, program {}", program.display());
    let start = Instant::now();
    let sides = Sides {
        program,
        fault: None,
    };
    let summary = sides.run(texts, seed);
    println!("texts ({:.1} s)", start.elapsed().as_secs_f64());
    summary.tally.print();
    let differences = &summary.differences;
    if let Some((number, text)) = &differences.first {
        sides.print(*number, text, seed);
    }
    // A run that a difference stopped shows less.
    let passed = differences.count == 0 && summary.tally.is_whole();
    summary.tally.end(differences.count);
    passed
}
