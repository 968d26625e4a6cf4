//! What the parts of the run did: forms, answers by call and number, kinds of damage.

use super::harm::HARMS;
use crate::trial::tally::{Counts, count, listed, merge};

/// The parts of the run.
#[derive(Clone, Copy, PartialEq)]
pub enum Part {
    Worked,
    Prefixes,
    Bytes,
    Stored,
    Loaded,
    Damaged,
}

/// The calls on forms.
#[derive(Clone, Copy, PartialEq, Eq, PartialOrd, Ord)]
pub enum Call {
    Store,
    Length,
    Load,
    Header,
}

const CALLS: [(Call, &str); 4] = [
    (Call::Store, "store"),
    (Call::Length, "stored_length"),
    (Call::Load, "load"),
    (Call::Header, "stored_header"),
];

/// A part, its name, and the answers that each call must have had in it.
pub const PARTS: [(Part, &str, [&[u32]; 4]); 6] = [
    (
        Part::Worked,
        "worked forms and refusals",
        [
            &[0, 3, 4, 15],
            &[0, 3, 4],
            &[0, 1, 2, 4, 14],
            &[0, 1, 2, 14],
        ],
    ),
    (
        Part::Prefixes,
        "every prefix of the small worked forms",
        [&[], &[], &[4, 14], &[14]],
    ),
    (
        Part::Bytes,
        "every one-byte change of two small forms",
        [&[], &[], &[1, 4, 14], &[1, 14]],
    ),
    (
        Part::Stored,
        "random stands stored, reached by calls and of any contents",
        [&[0, 3, 4, 15], &[0, 3, 4], &[], &[]],
    ),
    (
        Part::Loaded,
        "their forms loaded",
        [&[0], &[], &[0, 4], &[0]],
    ),
    (
        Part::Damaged,
        "their forms damaged",
        [&[], &[], &[0, 1, 2, 4, 14], &[0, 1, 2, 14]],
    ),
];

#[derive(Default)]
pub struct Tally {
    forms: u64,
    comparisons: u64,
    answers: Counts<(Call, u32)>,
}

#[derive(Default)]
pub struct Tallies {
    parts: [Tally; PARTS.len()],
    /// Answers of loads by kind of damage; of those given the digest of what they then hold.
    harms: Counts<(&'static str, u32)>,
    retargeted: Counts<u32>,
}

impl Tallies {
    pub fn form(&mut self, part: Part) {
        self.parts[part as usize].forms += 1;
    }

    pub fn compared(&mut self, part: Part) {
        self.parts[part as usize].comparisons += 1;
    }

    pub fn answered(&mut self, part: Part, call: Call, code: u32) {
        count(&mut self.parts[part as usize].answers, (call, code));
    }

    pub fn harmed(&mut self, name: &'static str, retargeted: bool, code: u32) {
        count(&mut self.harms, (name, code));
        if retargeted {
            count(&mut self.retargeted, code);
        }
    }

    pub fn add(&mut self, other: &Self) {
        for (mine, theirs) in self.parts.iter_mut().zip(&other.parts) {
            mine.forms += theirs.forms;
            mine.comparisons += theirs.comparisons;
            merge(&mut mine.answers, &theirs.answers);
        }
        merge(&mut self.harms, &other.harms);
        merge(&mut self.retargeted, &other.retargeted);
    }

    /// Answers of one call in a part, by number.
    fn codes(&self, part: usize, call: Call) -> Counts<u32> {
        let answers = self.parts[part].answers.iter();
        let own = answers.filter(|((of, _), _)| *of == call);
        own.map(|((_, code), n)| (*code, *n)).collect()
    }

    fn harm_codes(&self, name: &str) -> Counts<u32> {
        let own = self.harms.iter().filter(|((of, _), _)| *of == name);
        own.map(|((_, code), n)| (*code, *n)).collect()
    }

    pub fn print_part(&self, part: Part) {
        let at = part as usize;
        let tally = &self.parts[at];
        let (forms, comparisons) = (tally.forms, tally.comparisons);
        println!("{}: {forms} forms, {comparisons} comparisons", PARTS[at].1);
        for (call, name) in CALLS {
            let codes = self.codes(at, call);
            if !codes.is_empty() {
                println!("  {name} by code (0 accepted): {}", listed(&codes));
            }
        }
    }

    /// Loads of damaged forms.
    pub fn print_harms(&self) {
        println!("  loads by damage, and code:");
        for harm in &HARMS {
            println!("    {}: {}", harm.name, listed(&self.harm_codes(harm.name)));
        }
        let by = listed(&self.retargeted);
        println!("  of them with the digest of what they then hold, by code: {by}");
    }

    /// Whether all has occurred that a run must show; prints what has not.
    pub fn is_whole(&self) -> bool {
        let mut missing = Vec::new();
        for (at, (_, part, wanted)) in PARTS.iter().enumerate() {
            for ((call, name), codes) in CALLS.iter().zip(wanted) {
                let had = self.codes(at, *call);
                let lacks = codes.iter().filter(|code| !had.contains_key(code));
                missing.extend(lacks.map(|code| format!("{part}: {name} answered {code}")));
            }
        }
        let never = HARMS.iter().filter(|h| self.harm_codes(h.name).is_empty());
        missing.extend(never.map(|h| format!("damage: {}", h.name)));
        let sealed = [0, 14]
            .into_iter()
            .filter(|code| !self.retargeted.contains_key(code));
        missing.extend(sealed.map(|code| format!("damage with its own digest, answered {code}")));
        for what in &missing {
            println!("  never: {what}");
        }
        missing.is_empty()
    }

    /// The last line.
    pub fn end(&self, differences: u64) {
        let forms: u64 = self.parts.iter().map(|t| t.forms).sum();
        let comparisons: u64 = self.parts.iter().map(|t| t.comparisons).sum();
        println!("{forms} forms, {comparisons} comparisons, {differences} differences");
    }
}
