//! The text of the cases, and what was counted while it was written.

use super::answer::Answer;
use crate::ffi::{Cell, Extent};
use std::collections::BTreeMap;

#[derive(Default)]
pub struct Page {
    pub text: String,
    /// Lines with a verb, and those with an answer.
    pub calls: u64,
    pub answers: u64,
    /// Fills beside the stand.
    pub left_out: u64,
    /// Answers by verb and outcome.
    pub counts: BTreeMap<(String, String), u64>,
}

pub fn cell(c: Cell) -> String {
    format!("{} {} {}", c.x, c.y, c.z)
}

pub fn extent(e: Extent) -> String {
    format!("{} {} {}", e.x, e.y, e.z)
}

/// The outside rule by its name.
pub fn rule(rule: u32) -> &'static str {
    ["solid", "empty"][rule as usize]
}

impl Page {
    pub fn comment(&mut self, text: &str) {
        self.text += &format!("# {text}\n");
    }

    /// A line that only sets something.
    pub fn sets(&mut self, line: &str) {
        self.calls += 1;
        self.text += line;
        self.text.push('\n');
    }

    /// Answers of a verb.
    pub fn answers_of(&self, verb: &str) -> u64 {
        let of = self.counts.iter().filter(|((v, _), _)| v == verb);
        of.map(|(_, n)| n).sum()
    }

    pub fn answers(&mut self, call: &str, answer: &Answer) {
        let verb = call.split(' ').next().unwrap_or(call);
        let key = (verb.to_string(), answer.outcome());
        *self.counts.entry(key).or_default() += 1;
        self.answers += 1;
        self.sets(&format!("{call} = {answer}"));
    }
}
