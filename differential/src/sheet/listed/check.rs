//! One opening or refresh on storage of any contents, and all that it must leave.

use super::fault::Ours;
use super::section::{NUMBERS, Section, cuts, slices};
use super::stand::Stand;
use super::tally::Tally;
use crate::counts::Kind;
use crate::ffi::Number;
use crate::pair::{Difference, MODEL, Same, agree, equal};
use crate::rng::Rng;
use crate::sheet::attempt::Job;
use crate::sheet::due::widest;
use crate::sheet::measured::{Row, priced, row};
use crate::sheet::sums::MOST;
use std::fmt::Debug;

/// Our side, what was compared, and the numbers that lent lists hold.
pub struct Check {
    ours: Ours,
    pub tally: Tally,
    noise: Rng,
}

/// A row that was measured, and what its cents come from.
struct MeasuredRow<'a> {
    section: Section<'a>,
    row: Row,
    rates: &'a [u32],
    cut: u32,
}

/// As many numbers as wanted, each anything.
fn any<T>(length: usize, rng: &mut Rng, of: fn(u64) -> T) -> Vec<T> {
    (0..length).map(|_| of(rng.next())).collect()
}

impl Check {
    pub fn new(ours: Ours, noise: Rng) -> Self {
        Self {
            ours,
            tally: Tally::default(),
            noise,
        }
    }

    /// Numbers are those worked out by hand.
    pub fn said<T: PartialEq + Debug>(
        &mut self,
        kind: Kind,
        what: &str,
        got: &[T],
        due: &[T],
    ) -> Same {
        self.tally.counts.compared(kind);
        equal(what, got, "worked out", due)
    }

    fn holds(&mut self, kind: Kind, what: &str, held: bool) -> Same {
        self.tally.counts.compared(kind);
        agree(what, held, "wanted", true)
    }

    fn mask(&mut self, slots: usize) -> Vec<u16> {
        any(slots, &mut self.noise, |n| n as u16)
    }

    /// The first slots of a mask are 0, the others as they were.
    fn mask_left(&mut self, mask: &[u16], before: &[u16], cleared: usize) -> Same {
        let zero = mask[..cleared].iter().all(|n| *n == 0);
        self.holds(Kind::Kept, "the mask's first slots are 0", zero)?;
        let kept = mask[cleared..] == before[cleared..];
        self.holds(Kind::Kept, "the mask's other slots keep", kept)
    }

    /// Makes the call over rows and a mask of any numbers; the rows after it.
    pub fn measure(&mut self, stand: &Stand, job: &Job) -> Result<Vec<u64>, Difference> {
        let told = |d: Difference| {
            let (name, card, rule) = (job.name(), job.card, job.rule);
            let (mark, now) = (job.mark, job.volume.generation);
            Difference(format!(
                "{}; {name} at mark {mark} of {now}, rule {rule}, {card}",
                d.0
            ))
        };
        self.measure_all(stand, job).map_err(told)
    }

    fn measure_all(&mut self, stand: &Stand, job: &Job) -> Result<Vec<u64>, Difference> {
        let sections = stand.storage.log.len();
        let (due, rates) = (job.due_by_log(&stand.storage), job.card.rates());
        let want = widest(stand.volume, &due);
        let before = self.mask(job.slots(want));
        let code = code(stand, job, &due, &rates, before.len());
        let kept = any(sections * 3, &mut self.noise, |n| n);
        let (mut mask, mut rows) = (before.clone(), kept.clone());
        let got = self.ours.make(job, stand, &rates, &mut mask, &mut rows);
        self.tally.answered(job.refresh, code);
        self.tally.counts.compared(Kind::Answer);
        agree(job.name(), got, MODEL, job.answer(code))?;
        if code != 0 {
            self.holds(Kind::Rows, "refused, the sheet keeps", rows == kept)?;
            self.holds(Kind::Kept, "refused, the mask keeps", mask == before)?;
            return Ok(rows);
        }
        self.tally.measured(job.refresh, due.len(), sections);
        self.mask_left(&mask, &before, want)?;
        self.rows_left(&rows, &kept, &due)?;
        for number in due {
            self.listed(&MeasuredRow {
                section: Section::of(stand, number, job.rule),
                row: row_at(&rows, number),
                rates: &rates,
                cut: job.card.cut,
            })?;
        }
        Ok(rows)
    }

    /// Rows of sections that were not measured are as before.
    fn rows_left(&mut self, rows: &[u64], before: &[u64], measured: &[usize]) -> Same {
        let mut others = (0..rows.len() / 3).filter(|s| !measured.contains(s));
        let kept = others.all(|s| row_at(rows, s) == row_at(before, s));
        self.holds(Kind::Rows, "rows not measured keep", kept)
    }

    /// A row measured is the sums over what chunk_faces writes of its section: into a list of just its length, into a
    /// longer one, and into one that lacks a number.
    fn listed(&mut self, m: &MeasuredRow) -> Same {
        let panels = m.row[0];
        self.holds(
            Kind::Rows,
            "a row's panels within the limit",
            panels <= MOST[0],
        )?;
        let numbers = panels as usize * NUMBERS;
        let list = self.lend(m, 0, numbers, 0)?;
        self.tally.counts.compared(Kind::Rows);
        let summed = row(&cuts(&list), m.rates, m.cut);
        agree("row of a section", m.row, "sums over its panels", summed)?;
        let in_slice = slices(&list).into_iter().max();
        self.tally.row(panels, in_slice.unwrap_or(0));
        let over = 1 + self.noise.below(20) as usize;
        let longer = self.lend(m, 1, numbers + over, 0)?;
        self.same_panels("a longer list", &longer[..numbers], &list)?;
        let Some(short) = numbers.checked_sub(1) else {
            return Ok(());
        };
        let shorter = self.lend(m, 2, short, 11)?;
        let fit = numbers - NUMBERS;
        self.same_panels("a list one short", &shorter[..fit], &list[..fit])
    }

    fn same_panels(&mut self, what: &str, ours: &[i32], due: &[i32]) -> Same {
        self.tally.counts.compared(Kind::Panels);
        equal(what, ours, "the list just long enough", due)
    }

    /// chunk_faces with a list of so many numbers: its answer, the mask and the list's end are held.
    fn lend(
        &mut self,
        m: &MeasuredRow,
        kind: usize,
        numbers: usize,
        code: u32,
    ) -> Result<Vec<i32>, Difference> {
        let want = m.section.want();
        let before = any(numbers, &mut self.noise, |n| n as i32);
        let slots = want + self.noise.below(3) as usize;
        let mask_before = self.mask(slots);
        let (mut mask, mut list) = (mask_before.clone(), before.clone());
        let got = m.section.chunk_faces(&mut mask, &mut list);
        self.tally.lent(kind);
        self.tally.counts.compared(Kind::Answer);
        let value = m.row[0];
        agree("chunk_faces", got, "row", Number { code, value })?;
        self.mask_left(&mask, &mask_before, want)?;
        let written = (value as usize).min(numbers / NUMBERS) * NUMBERS;
        let kept = list[written..] == before[written..];
        self.holds(Kind::Kept, "the list after the last panel keeps", kept)?;
        Ok(list)
    }
}

fn row_at(rows: &[u64], section: usize) -> Row {
    [0, 1, 2].map(|i| rows[section * 3 + i])
}

/// The lowest number that applies, 0 for none; 12 by the panels that chunk_faces lists.
fn code(stand: &Stand, job: &Job, due: &[usize], rates: &[u32], mask: usize) -> u32 {
    let code = job.refusal(widest(stand.volume, due), mask);
    let panels = |number: &usize| cuts(&Section::of(stand, *number, job.rule).list());
    if code == 0 && !due.iter().all(|s| priced(&panels(s), rates)) {
        return 12;
    }
    code
}
