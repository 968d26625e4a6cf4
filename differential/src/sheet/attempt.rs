//! One call that measures, and all that it must leave.

use super::due::widest;
use super::{Card, Harm, Trial};
use crate::counts::Kind;
use crate::fault::Fault;
use crate::ffi::{Marked, Volume};
use crate::ours::{self, Read, Storage, Terms};
use crate::pair::{Difference, Pair, Same};

const DIRT: u16 = 0xd7d7;

/// An opening or a refresh with all that it is given.
#[derive(Clone, Copy)]
pub struct Job {
    pub refresh: bool,
    pub volume: Volume,
    pub mark: u64,
    pub card: Card,
    pub rule: u32,
    pub harm: Harm,
    /// A mask with one slot too few, or with `over` more than needed.
    pub short: bool,
    pub over: usize,
}

impl Job {
    pub fn opening(volume: Volume, mark: u64, card: Card, rule: u32) -> Self {
        Self {
            refresh: false,
            volume,
            mark,
            card,
            rule,
            harm: Harm::None,
            short: false,
            over: 0,
        }
    }

    pub fn name(&self) -> &'static str {
        if self.refresh {
            "refresh"
        } else {
            "open_sheet"
        }
    }

    /// The slots of the mask lent, where 10 wants `want`.
    pub fn slots(&self, want: usize) -> usize {
        if self.short {
            want.saturating_sub(1)
        } else {
            want + self.over
        }
    }

    /// Our side's call, with the rates of its card laid out.
    pub fn make(&self, s: &Storage, rates: &[u32], mask: &mut [u16], rows: &mut [u64]) -> Marked {
        let terms = Terms {
            rates,
            cut: self.card.cut,
            rule: self.rule,
        };
        let read = Read {
            cells: self.harm.cut(Harm::CellsShort, &s.cells),
            log: self.harm.cut(Harm::LogShort, &s.log),
            last: self.harm.cut(Harm::LastShort, &s.last),
        };
        if self.refresh {
            return ours::refresh(self.volume, self.mark, read, terms, mask, rows);
        }
        ours::open_sheet(self.volume, self.mark, read.cells, terms, mask, rows)
    }

    /// What it answers under a code: its mark after an accepted call, else the mark given.
    pub fn answer(&self, code: u32) -> Marked {
        let mark = if code == 0 {
            self.volume.generation
        } else {
            self.mark
        };
        Marked { code, mark }
    }
}

impl Pair {
    /// A call on a copy of the sheet, or on rows of anything.
    pub(super) fn trial(&mut self, t: Trial) -> Same {
        let now = self.volume.generation;
        let mut rows = self.rows_or_dirt();
        t.harm.sheet(&mut rows);
        let job = Job {
            refresh: t.refresh,
            volume: t.harm.header(self.volume),
            mark: t.lag.map_or(now + 1, |n| now.saturating_sub(n)),
            card: t.card,
            rule: t.rule,
            harm: t.harm,
            short: t.short,
            over: self.sheet_turn(),
        };
        let code = self.attempt(job, &mut rows)?;
        self.tally(false, code != 0);
        Ok(())
    }

    /// Makes the call and holds its answer, the rows and the mask; the code that was due.
    pub(super) fn attempt(&mut self, job: Job, rows: &mut [u64]) -> Result<u32, Difference> {
        if self.sheet.laid.0 != job.card {
            self.sheet.laid = (job.card, job.card.rates());
        }
        let due = self.due(&job);
        let want = widest(self.volume, &due);
        let slots = job.slots(want);
        let code = self.sheet_code(&job, &due, slots)?;
        let before = rows.to_vec();
        let mut mask = vec![DIRT; slots];
        let got = job.make(&self.storage, &self.sheet.laid.1, &mut mask, rows);
        self.spoil_rows(&job, &due, &before, rows);
        self.counts.sheet.answered(code);
        self.same(Kind::Answer, job.name(), got, job.answer(code))?;
        let measured = if code == 0 { due } else { Vec::new() };
        self.rows_left(&job, &measured, &before, rows)?;
        let cleared = if code == 0 { want } else { 0 };
        self.mask_left(&mask, cleared)?;
        Ok(code)
    }

    fn mask_left(&mut self, mask: &[u16], cleared: usize) -> Same {
        let (first, rest) = mask.split_at(cleared);
        let zero = first.iter().all(|n| *n == 0);
        let kept = rest.iter().all(|n| *n == DIRT);
        self.holds("the mask's first slots are 0", zero)?;
        self.holds("the mask's other slots keep", kept)
    }

    /// Rows measured are the Rust's, all others as before.
    fn rows_left(&mut self, job: &Job, measured: &[usize], before: &[u64], rows: &[u64]) -> Same {
        let mut wanted = before.to_vec();
        for section in measured {
            let row = self.row_by_rust(*section, job.rule)?;
            wanted[section * 3..section * 3 + 3].copy_from_slice(&row);
        }
        let what = format!("{}: rows", job.name());
        self.same_list(Kind::Rows, &what, rows, &wanted)
    }

    /// Every row of the sheet that is kept is the Rust's.
    pub(super) fn hold_rows(&mut self) -> Same {
        let rule = self.sheet.rule;
        let mut wanted = Vec::new();
        for section in 0..self.storage.log.len() {
            wanted.extend(self.row_by_rust(section, rule)?);
        }
        let rows = std::mem::take(&mut self.sheet.rows);
        let same = self.same_list(Kind::Rows, "all rows", &rows, &wanted);
        self.sheet.rows = rows;
        same
    }

    /// The faults of a refresh, put in on purpose.
    fn spoil_rows(&self, job: &Job, due: &[usize], before: &[u64], rows: &mut [u64]) {
        if !job.refresh || rows == before {
            return;
        }
        for section in due {
            let at = section * 3..section * 3 + 3;
            if self.faulty(Fault::Neighbours) && !self.changed(job.mark, *section) {
                rows[at.clone()].copy_from_slice(&before[at]);
            } else if self.faulty(Fault::Added) {
                at.for_each(|i| rows[i] += before[i]);
            }
        }
    }
}
