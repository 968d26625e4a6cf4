//! Recorded calls on the stand and its panels: lists made like those of the tiers.

use super::answer::Answer;
use super::page::{cell, extent};
use super::stage::Stage;
use crate::calls::{self, Call, Mix};
use crate::ffi::{Cell, Extent};
use crate::model;
use crate::rng::Rng;
use crate::theirs::{self, Theirs};
use crate::tiers;

const LISTS: u64 = 40;
const PER_LIST: usize = 50;

/// After each call of this number: lists, walks and panels.
const EVERY: usize = 10;

const MIX: Mix = Mix {
    sizes: tiers::few,
    reach: 8,
};

pub fn record(stage: &mut Stage, seed: u64) {
    for number in 0..LISTS {
        let mut rng = Rng::of(seed, 4, number);
        stage.page.comment(&format!("list {number}"));
        stage.clear();
        for (i, call) in calls::list(MIX, PER_LIST, &mut rng).iter().enumerate() {
            stage.call(call);
            if i % EVERY == EVERY - 1 {
                stage.survey(&mut rng);
            }
        }
    }
}

fn place(c: Option<Cell>, code: u32) -> Answer {
    c.map_or(Answer::Refused(code), |c| Answer::of([c.x, c.y, c.z]))
}

fn yes(held: bool) -> Answer {
    Answer::Word(if held { "yes" } else { "no" })
}

impl Stage {
    fn call(&mut self, call: &Call) {
        match *call {
            Call::Open(origin, size) => {
                self.open(origin, size);
            }
            Call::Set(at, finish) | Call::SetLent(at, finish) => self.set(at, finish),
            Call::Fill(from, to, finish) => self.fill(from, to, finish),
            Call::Look(at) => self.look(at),
            Call::Section(section) => self.section(section),
            Call::Since(mark) => self.since(mark),
            Call::Merged(e) => self.merged(e),
            Call::Sheet(_) => {}
        }
    }

    fn stand(&self) -> &Theirs {
        self.theirs.as_ref().expect("a list begins with an opening")
    }

    /// Versions, log and last changes.
    fn lists(&mut self) {
        let stored = self.stand().stored();
        let short = stored.versions.iter().chain(stored.log);
        let short = short.map(|n| u64::from(*n));
        let answer = Answer::of(short.chain(stored.last.iter().copied()));
        self.page.answers("lists", &answer);
    }

    fn look(&mut self, at: Cell) {
        let t = self.stand();
        let rust = theirs::cell(at);
        let answers = [
            ("get", Answer::number(t.get(at), 5)),
            ("inside", yes(t.0.contains(rust))),
            ("occupied", yes(t.0.is_solid(rust))),
            ("section", Answer::number(t.chunk_of(at), 5)),
            ("clamp", place(Some(t.clamp(at)), 0)),
        ];
        for (verb, answer) in answers {
            self.page.answers(&format!("{verb} {}", cell(at)), &answer);
        }
    }

    fn section(&mut self, section: usize) {
        let t = self.stand();
        let v = t.header();
        let there = section < t.0.chunk_count();
        let wants = there.then(|| model::want(v, Some(section)) as u64);
        let answers = [
            ("hash", Answer::number(t.0.chunk_hash(section), 7)),
            ("version", Answer::number(t.chunk_version(section), 7)),
            ("corner", place(t.chunk_origin(section), 7)),
            ("wants", Answer::number(wants, 7)),
        ];
        for (verb, answer) in answers {
            self.page.answers(&format!("{verb} {section}"), &answer);
        }
    }

    fn since(&mut self, mark: u64) {
        let t = self.stand();
        let n = t.0.chunk_count();
        let code = model::feed_code(t.header(), n, n, mark);
        let given = t.0.changed_since(mark);
        let answer = given.map_or(Answer::Refused(code), |walk| {
            Answer::of(walk.map(|section| section as u64))
        });
        self.page.answers(&format!("changed {mark}"), &answer);
    }

    fn merged(&mut self, e: Extent) {
        let answer = Answer::number(model::merged(e), 13);
        self.page.answers(&format!("merged {}", extent(e)), &answer);
    }

    /// The lists, both walks, and the panels of a section and of the whole under one rule.
    fn survey(&mut self, rng: &mut Rng) {
        self.lists();
        let t = self.stand();
        let (n, now) = (t.0.chunk_count() as u64, t.0.generation());
        self.since(now.saturating_sub(rng.below(n + 2)));
        let solids = self.stand().solids();
        let numbers = solids.flat_map(|(c, f)| [c.x.into(), c.y.into(), c.z.into(), f.into()]);
        let answer = Answer::of::<i64>(numbers);
        self.page.answers("solids", &answer);
        let by = rng.below(2) as u32;
        self.panels(Some(rng.below(n + 1) as usize), by);
        self.panels(None, by);
    }
}
