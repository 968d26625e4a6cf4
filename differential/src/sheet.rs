//! The price sheet after random edits, each row held to the Rust's panels.

mod attempt;
mod card;
mod due;
mod example;
mod harm;
mod list;
mod listed;
mod measured;
mod run;
mod smaller;
mod sums;
mod tally;
mod trial;

pub use card::{Card, LIMIT};
pub use due::beside;
pub use example::example;
pub use harm::Harm;
pub use list::calls_of;
pub use listed::{STANDS as LISTED, run as listed, self_test};
pub use measured::{Row, cuts, priced, row};
pub use run::{CALLS, OPTIONS, run};
pub use smaller::smaller;
pub use tally::Tally;
pub use trial::{Ask, Trial};

use crate::pair::{Difference, Pair, Same};
use attempt::Job;
use measured::Measured;

/// The sheet of a stand: its rows, and what it was opened with.
#[derive(Default)]
pub struct Sheet {
    rows: Vec<u64>,
    mark: u64,
    card: Card,
    rule: u32,
    open: bool,
    /// The rates of a card, laid out.
    laid: (Card, Vec<u32>),
    measured: Measured,
}

impl Sheet {
    /// After an edit the Rust's panels are others.
    pub fn edited(&mut self) {
        self.measured = Measured::default();
    }

    /// A stand opened anew needs its sheet opened anew.
    pub fn close(&mut self) {
        self.open = false;
    }
}

impl Pair {
    pub fn ask(&mut self, ask: Ask) -> Same {
        match ask {
            Ask::Open(card, rule) => self.open_sheet(card, rule),
            Ask::Refresh if self.sheet.open => self.refresh_sheet(),
            Ask::Refresh => Ok(()),
            Ask::Trial(trial) => self.trial(trial),
            Ask::Sum(sum) => self.try_sum(sum),
        }
    }

    fn open_sheet(&mut self, card: Card, rule: u32) -> Same {
        let mut rows = self.rows_or_dirt();
        let job = Job::opening(self.volume, self.sheet.mark, card, rule);
        let code = self.around(job, &mut rows)?;
        if code == 0 {
            self.sheet.open = true;
            self.sheet.card = card;
            self.sheet.rule = rule;
        }
        self.take(code, rows)
    }

    /// By the card, the rule and the mark that are kept.
    fn refresh_sheet(&mut self) -> Same {
        let s = &self.sheet;
        let job = Job {
            refresh: true,
            ..Job::opening(self.volume, s.mark, s.card, s.rule)
        };
        let lag = self.volume.generation - s.mark;
        self.counts.sheet.lagged(lag, self.storage.log.len() as u64);
        let mut rows = s.rows.clone();
        let code = self.around(job, &mut rows)?;
        self.take(code, rows)
    }

    /// A copy of the sheet, or rows of anything where none is open.
    fn rows_or_dirt(&self) -> Vec<u64> {
        if self.sheet.open {
            return self.sheet.rows.clone();
        }
        dirty(self.storage.log.len())
    }

    /// The call with a mask too short and over a sheet of markers, on copies; then as it is.
    fn around(&mut self, job: Job, rows: &mut [u64]) -> Result<u32, Difference> {
        let over = self.sheet_turn();
        let short = Job { short: true, ..job };
        self.attempt(short, &mut rows.to_vec())?;
        self.attempt(job, &mut dirty(rows.len() / 3))?;
        self.attempt(Job { over, ..job }, rows)
    }

    /// Slots that a mask has more than it needs.
    fn sheet_turn(&mut self) -> usize {
        self.turn += 1;
        [0, 1, 7, 300][self.turn % 4]
    }

    /// The sheet after a call: if accepted, every row is the Rust's and the totals are their sums.
    fn take(&mut self, code: u32, rows: Vec<u64>) -> Same {
        self.tally(false, code != 0);
        if code != 0 {
            return Ok(());
        }
        self.sheet.rows = rows;
        self.sheet.mark = self.volume.generation;
        self.hold_rows()?;
        self.hold_totals()
    }
}

/// Rows that no section has.
fn dirty(sections: usize) -> Vec<u64> {
    (0..sections as u64 * 3)
        .map(|i| 0x5d5d_0000_0000 + i)
        .collect()
}
