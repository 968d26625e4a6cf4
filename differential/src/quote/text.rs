//! Texts by their number: a script's calls as lines, with others between.

use super::bad::{Bad, FORMS};
use super::line::{Line, Says};
use crate::rng::Rng;
use crate::trial::call::{Call, parts};
use crate::trial::script;

#[derive(Clone)]
pub struct Text {
    pub lines: Vec<Line>,
    /// The last line has an end.
    pub ended: bool,
}

impl Text {
    pub fn bytes(&self) -> Vec<u8> {
        let lines: Vec<&[u8]> = self.lines.iter().map(|l| &l.bytes[..]).collect();
        let mut bytes = lines.join(&b'\n');
        if self.ended && !lines.is_empty() {
            bytes.push(b'\n');
        }
        bytes
    }

    /// The first bad line: its index, and what is wrong.
    pub fn bad(&self) -> Option<(usize, Bad)> {
        let mut lines = self.lines.iter().enumerate();
        lines.find_map(|(i, line)| match line.says {
            Says::Bad(bad) => Some((i, bad)),
            _ => None,
        })
    }

    /// The lines up to the first bad one, which the program reads.
    pub fn read(&self) -> &[Line] {
        let count = self.bad().map_or(self.lines.len(), |(i, _)| i + 1);
        &self.lines[..count]
    }

    /// The calls before the first bad line.
    pub fn calls(&self) -> impl Iterator<Item = Call> {
        self.read().iter().filter_map(|line| match line.says {
            Says::Call(call) => Some(call),
            _ => None,
        })
    }

    /// The program reads a last line that says something and has no end.
    pub fn breaks_off(&self) -> bool {
        let last = self.lines.last();
        let says = last.is_some_and(|l| l.says != Says::Nothing);
        says && !self.ended && self.read().len() == self.lines.len()
    }
}

pub fn make(seed: u64, number: u64) -> Text {
    let script = script::make(seed, number);
    let (calls, rest) = parts(&script.bytes);
    let mut w = Writer::new(Rng::of(seed, 6, number));
    // A broken script has a bad line where it breaks, one in three of the others anywhere.
    let at = match rest.is_empty() {
        false => Some(calls.len()),
        true if w.rng.chance(33) => Some(w.rng.below(calls.len() as u64 + 1) as usize),
        true => None,
    };
    let (before, after) = calls.split_at(at.unwrap_or(calls.len()));
    w.calls(before);
    if at.is_some() {
        w.bad();
    }
    w.calls(after);
    if w.rng.chance(20) {
        w.calls(&[Call::Refresh]);
    }
    Text {
        ended: w.rng.chance(70),
        lines: w.lines,
    }
}

struct Writer {
    rng: Rng,
    /// Lines end in a carriage return.
    carriage: bool,
    lines: Vec<Line>,
}

impl Writer {
    fn new(mut rng: Rng) -> Self {
        Self {
            carriage: rng.chance(20),
            rng,
            lines: Vec::new(),
        }
    }

    fn calls(&mut self, calls: &[Call]) {
        for call in calls {
            self.nothing();
            let line = Line::of_call(&mut self.rng, *call, self.carriage);
            self.lines.push(line);
        }
        self.nothing();
    }

    /// Lines that say nothing, most often none.
    fn nothing(&mut self) {
        for _ in 0..self.rng.pick(&[0, 0, 0, 0, 0, 0, 0, 0, 1, 2]) {
            let line = Line::of_nothing(&mut self.rng, self.carriage);
            self.lines.push(line);
        }
    }

    fn bad(&mut self) {
        let (name, form) = &FORMS[self.rng.below(FORMS.len() as u64) as usize];
        let mut line = form.line(&mut self.rng, self.carriage);
        line.marks.push(name);
        self.lines.push(line);
    }
}
