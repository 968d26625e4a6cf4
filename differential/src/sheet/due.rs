//! Which sections a call measures, what 10 wants of its mask, and by what it is refused.

use super::attempt::Job;
use super::card::LIMIT;
use crate::ffi::{Extent, Volume};
use crate::model;
use crate::ours::Storage;
use crate::pair::{Difference, Pair};

/// The sections that share a face with one.
pub fn beside(chunks: Extent, section: usize) -> Vec<usize> {
    let k = [chunks.x, chunks.y, chunks.z].map(|n| n as usize);
    let place = [section % k[0], section / k[0] % k[1], section / k[0] / k[1]];
    let strides = [1, k[0], k[0] * k[1]];
    let mut all = Vec::new();
    for a in 0..3 {
        if place[a] > 0 {
            all.push(section - strides[a]);
        }
        if place[a] + 1 < k[a] {
            all.push(section + strides[a]);
        }
    }
    all
}

/// The sections that have changed, and those beside one.
fn with_beside(chunks: Extent, sections: usize, changed: impl Fn(usize) -> bool) -> Vec<usize> {
    let due = |s: &usize| changed(*s) || beside(chunks, *s).into_iter().any(&changed);
    (0..sections).filter(due).collect()
}

/// The largest side of the sections measured.
pub fn widest(v: Volume, due: &[usize]) -> usize {
    let sides = due.iter().map(|s| model::want(v, Some(*s)));
    sides.max().unwrap_or(0)
}

impl Job {
    /// All sections are measured, whatever has changed.
    fn measures_all(&self, sections: usize) -> bool {
        let lag = self.volume.generation.saturating_sub(self.mark);
        !self.refresh || lag > sections as u64
    }

    /// The sections measured on a log and last changes of any contents.
    pub fn due_by_log(&self, s: &Storage) -> Vec<usize> {
        let sections = s.log.len();
        if self.measures_all(sections) {
            return (0..sections).collect();
        }
        let given = model::changed(self.volume, &s.log, &s.last, self.mark);
        let changed = |section: usize| given.contains(&(section as u64));
        with_beside(self.volume.chunks, sections, changed)
    }

    /// The lowest number that applies before a panel is priced, 0 for none.
    pub fn refusal(&self, want: usize, mask: usize) -> u32 {
        let ahead = self.refresh && self.mark > self.volume.generation;
        let rules = [
            (self.rule > 1, 100),
            (!model::formed(self.volume), 3),
            (self.harm.to_list(self.refresh), 4),
            (ahead, 8),
            (mask < want, 10),
            (self.card.cut > LIMIT, 12),
        ];
        rules.into_iter().find(|r| r.0).map_or(0, |r| r.1)
    }
}

impl Pair {
    /// Whether a section has changed since a mark, by the Rust's last changes.
    pub(super) fn changed(&self, mark: u64, section: usize) -> bool {
        self.theirs.stored().last[section] > mark
    }

    pub(super) fn due(&self, job: &Job) -> Vec<usize> {
        let n = self.storage.log.len();
        let every = job.measures_all(n);
        let changed = |s: usize| every || self.changed(job.mark, s);
        with_beside(self.volume.chunks, n, changed)
    }

    /// The lowest number that applies, 0 for none.
    pub(super) fn sheet_code(
        &mut self,
        job: &Job,
        due: &[usize],
        mask: usize,
    ) -> Result<u32, Difference> {
        let code = job.refusal(widest(self.volume, due), mask);
        if code != 0 {
            return Ok(code);
        }
        for section in due {
            if !self.priced_by_rust(*section, job.rule)? {
                return Ok(12);
            }
        }
        Ok(0)
    }
}
