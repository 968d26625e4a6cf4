//! What the program `cases` keeps from line to line, the Rust in the place of its stand.

use super::answer::Answer;
use super::page::{Page, cell, extent, rule};
use crate::ffi::{Cell, Extent};
use crate::model;
use crate::theirs::{self, Theirs};
use crate::trial::program;

/// The most that a mask has, and room for 48 panels and 6 numbers more.
const SLOTS: usize = 1_024;
const LIST: usize = 390;

/// What a mask holds before a call.
const DIRT: u16 = 7;

/// Numbers of the largest sheet, and finishes on the list.
const SHEET: usize = 12;
const FINISHES: usize = 64;
const UNSET: u32 = u32::MAX;

pub struct Stage {
    pub page: Page,
    pub theirs: Option<Theirs>,
    /// Sections for which storage is lent.
    lent: usize,
    pub mask: Vec<u16>,
    list: Vec<i32>,
    pub rates: [u32; FINISHES],
    pub cut: u32,
    pub sheet: [u64; SHEET],
    pub mark: u64,
}

impl Stage {
    pub fn new() -> Self {
        Self {
            page: Page::default(),
            theirs: None,
            lent: 0,
            mask: Vec::new(),
            list: vec![0; LIST],
            rates: [UNSET; FINISHES],
            cut: 0,
            sheet: [0; SHEET],
            mark: 0,
        }
    }

    /// No stand, no rates, a list and a sheet of zeros: so that what follows relies on no line before.
    pub fn clear(&mut self) {
        self.theirs = None;
        self.page.sets("header 0 0 0 0 0 0 0 0 0 0 0");
        self.lend(0);
        self.list.fill(0);
        self.page.sets(&format!("list {LIST} 0"));
        self.lay_mask(SLOTS);
        self.page.sets(&format!("rates {FINISHES}"));
        for finish in 0..FINISHES as u16 {
            if self.rates[usize::from(finish)] != UNSET {
                self.rate(finish, UNSET);
            }
        }
        self.set_cut(0);
        self.sheet.fill(0);
        self.page.sets(&format!("sheet {SHEET} 0"));
        self.set_mark(0);
    }

    /// Storage and sheet for so many sections.
    fn lend(&mut self, sections: usize) {
        self.lent = sections;
        self.page.sets(&format!("lend {sections}"));
    }

    /// A mask of so many slots, all dirty.
    pub fn lay_mask(&mut self, slots: usize) {
        self.mask = vec![DIRT; slots];
        self.page.sets(&format!("mask {slots} {DIRT}"));
    }

    pub fn rate(&mut self, finish: u16, rate: u32) {
        self.rates[usize::from(finish)] = rate;
        self.page.sets(&format!("rate {finish} {rate}"));
    }

    pub fn set_cut(&mut self, cut: u32) {
        self.cut = cut;
        self.page.sets(&format!("cut {cut}"));
    }

    pub fn set_mark(&mut self, mark: u64) {
        self.mark = mark;
        self.page.sets(&format!("mark {mark}"));
    }

    /// An opening, lent storage for its sections where there are at most 4 of them; a refused one keeps the stand.
    pub fn open(&mut self, origin: Cell, size: Extent) -> u32 {
        let code = program::open_code(origin, size);
        let call = format!("open {} {}", cell(origin), extent(size));
        let mut answer = Answer::Refused(code);
        if code == 0 {
            let opened = Theirs::open(origin, size).expect("the Rust opens where none refuses");
            let sections = opened.0.chunk_count();
            if sections != self.lent {
                self.lend(sections);
            }
            let n = opened.size();
            answer = Answer::of([n.x, n.y, n.z]);
            self.theirs = Some(opened);
        }
        self.page.answers(&call, &answer);
        self.compare();
        code
    }

    pub fn set(&mut self, at: Cell, finish: u16) {
        let answer = match &mut self.theirs {
            None => Answer::Refused(3),
            Some(t) if !t.0.contains(theirs::cell(at)) => Answer::Refused(5),
            Some(t) => Answer::Word(["unchanged", "changed"][usize::from(t.set(at, finish))]),
        };
        let call = format!("set {} {finish}", cell(at));
        self.page.answers(&call, &answer);
        self.compare();
    }

    /// A fill, but none beside the stand: there the Rust's answer is not that of document 02, 2.1.
    pub fn fill(&mut self, from: Cell, to: Cell, finish: u16) {
        let misses = |t: &Theirs| model::lies(t.header(), from, to).misses();
        if self.theirs.as_ref().is_some_and(misses) {
            self.page.left_out += 1;
            return;
        }
        let changed = self.theirs.as_mut().map(|t| t.fill(from, to, finish));
        let call = format!("fill {} {} {finish}", cell(from), cell(to));
        self.page.answers(&call, &Answer::number(changed, 3));
        self.compare();
    }

    /// Generation, solid and digest.
    fn compare(&mut self) {
        if let Some(t) = &self.theirs {
            let v = t.header();
            let answer = Answer::of([v.generation, v.solid, t.0.digest()]);
            self.page.answers("stand", &answer);
        }
    }

    /// The panels of a section, or of the whole: how many, and what list and mask hold after it.
    pub fn panels(&mut self, part: Option<usize>, by: u32) {
        let Some(t) = &self.theirs else {
            return;
        };
        let v = t.header();
        let (name, code) = match part {
            Some(s) => (format!("panels {s}"), model::section_code(v, s)),
            None => ("whole".into(), 0),
        };
        let panels: Vec<[i32; 8]> = t.panels(part, by).iter().map(theirs::panel).collect();
        let want = if code == 0 { model::want(v, part) } else { 0 };
        self.lay_mask(SLOTS);
        self.mask[..want].fill(0);
        let fit = panels.len().min(LIST / 8);
        self.list[..fit * 8].copy_from_slice(&panels[..fit].concat());
        let answer = match code {
            0 if panels.len() > fit => Answer::Short(panels.len()),
            0 => Answer::of([panels.len() as u64]),
            _ => Answer::Refused(code),
        };
        let call = format!("{name} {}", rule(by));
        self.page.answers(&call, &answer);
        let numbers = Answer::of(self.list.iter().copied());
        self.page.answers("numbers", &numbers);
        self.slots();
    }

    pub fn slots(&mut self) {
        let slots = Answer::of(self.mask.iter().copied());
        self.page.answers("slots", &slots);
    }
}
