//! Many scripts, each given to the program and to the reference.

use super::call::{hex, parts};
use super::fault::Fault;
use super::process::{self, Shown};
use super::program::{Played, play};
use super::script::{EXAMPLE_LINES, Script, make};
use super::tally::Tally;
use crate::differences::Differences;
use crate::many::while_same;
use crate::shrink::fewest;
use std::path::PathBuf;
use std::sync::Mutex;
use std::time::Instant;

/// Scripts of a run.
pub const SCRIPTS: u64 = 300_000;

pub struct Sides {
    pub program: PathBuf,
    pub fault: Option<Fault>,
}

#[derive(Default)]
pub struct Summary {
    pub tally: Tally,
    pub differences: Differences<Script>,
}

impl Sides {
    fn program_shows(&self, script: &[u8]) -> Shown {
        let mut shown = process::run(&self.program, script);
        if let Some(fault) = self.fault {
            fault.spoil(&mut shown);
        }
        shown
    }

    /// What the reference does, and whether the program shows the same.
    fn compare(&self, script: &[u8]) -> (Played, bool) {
        let played = play(script, self.fault);
        let same = self.program_shows(script) == Shown::due(&played.text);
        (played, same)
    }

    pub fn run(&self, scripts: u64, seed: u64) -> Summary {
        let summary = Mutex::new(Summary::default());
        while_same(scripts, |number| {
            let script = make(seed, number);
            let (mut played, mut same) = self.compare(&script.bytes);
            same &= number != 0 || self.fault.is_some() || played.text == EXAMPLE_LINES;
            played.tally.made(script.kind, played.text.lines().count());
            let mut all = summary.lock().expect("no thread panicked");
            all.tally.add(&played.tally);
            if !same {
                all.differences.add(number, script);
            }
            same
        });
        summary.into_inner().expect("no thread panicked")
    }

    /// The script with as few calls and other bytes as still differ.
    pub fn smallest(&self, script: &[u8]) -> Vec<u8> {
        let (calls, rest) = parts(script);
        let mut pieces: Vec<Vec<u8>> = calls.iter().map(|c| c.bytes()).collect();
        pieces.extend(rest.iter().map(|b| vec![*b]));
        fewest(&pieces, |p| !self.compare(&p.concat()).1).concat()
    }

    fn print(&self, number: u64, found: &Script, seed: u64) {
        let kind = found.kind;
        println!("  DIFFERENCE in script {number} ({kind}), seed {seed}; smallest script found:");
        let script = self.smallest(&found.bytes);
        for line in text(&script) {
            println!("    {line}");
        }
        println!("  as bytes: {}", hex(&script));
        self.program_shows(&script).print("program");
        Shown::due(&play(&script, self.fault).text).print("reference");
    }
}

/// A script as text, a line for each call.
pub fn text(script: &[u8]) -> Vec<String> {
    let (calls, rest) = parts(script);
    let mut lines: Vec<String> = calls.iter().map(ToString::to_string).collect();
    if !rest.is_empty() {
        lines.push(format!("bytes {}", hex(rest)));
    }
    if lines.is_empty() {
        lines.push("nothing".into());
    }
    lines
}

pub fn program() -> Option<PathBuf> {
    process::program("trial", "STAND_TRIAL")
}

/// The mode: false where a script differs, or where the scripts lack something.
pub fn run(scripts: u64, seed: u64) -> bool {
    let Some(program) = program() else {
        return false;
    };
    println!("seed {seed}, program {}", program.display());
    let start = Instant::now();
    let sides = Sides {
        program,
        fault: None,
    };
    let summary = sides.run(scripts, seed);
    println!("scripts ({:.1} s)", start.elapsed().as_secs_f64());
    summary.tally.print();
    let differences = &summary.differences;
    if let Some((number, script)) = &differences.first {
        sides.print(*number, script, seed);
    }
    // A run that a difference stopped shows less.
    let passed = differences.count == 0 && summary.tally.is_whole();
    summary.tally.end(differences.count);
    passed
}
