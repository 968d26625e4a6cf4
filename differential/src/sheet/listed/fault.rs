//! Our side's openings and refreshes, and faults put into them on purpose, to see that this part finds them.

use super::section::{NUMBERS, Section, cuts, slices};
use super::stand::Stand;
use crate::ffi::Marked;
use crate::ours::Storage;
use crate::sheet::attempt::Job;
use crate::sheet::measured::row;

#[derive(Clone, Copy, PartialEq, Debug)]
pub enum Fault {
    /// A row with one face too many.
    Faces,
    /// A row without its last panel.
    Last,
    /// A row without the 256th panel of a slice.
    Full,
    /// A refresh that takes each section of the log as changed, whatever its last change.
    Logged,
    /// A refusal by 12 that clears the mask.
    Wiped,
}

pub const ALL: [Fault; 5] = [
    Fault::Faces,
    Fault::Last,
    Fault::Full,
    Fault::Logged,
    Fault::Wiped,
];

/// Our side, with a fault or with none.
#[derive(Clone, Copy, Default)]
pub struct Ours(pub Option<Fault>);

impl Ours {
    /// The opening or refresh.
    pub fn make(
        self,
        job: &Job,
        stand: &Stand,
        rates: &[u32],
        mask: &mut [u16],
        rows: &mut [u64],
    ) -> Marked {
        let s = &stand.storage;
        if self.0 == Some(Fault::Logged) {
            return job.make(&trusted(job, s), rates, mask, rows);
        }
        let got = job.make(s, rates, mask, rows);
        let Some(fault) = self.0 else {
            return got;
        };
        if fault == Fault::Wiped && got.code == 12 {
            mask.fill(0);
        }
        if got.code == 0 {
            for number in job.due_by_log(s) {
                let list = Section::of(stand, number, job.rule).list();
                let of = &mut rows[number * 3..number * 3 + 3];
                fault.spoil(&list, rates, job.card.cut, of);
            }
        }
        got
    }
}

/// The lists with each last change as the log has it.
fn trusted(job: &Job, s: &Storage) -> Storage {
    let mut s = s.clone();
    let n = s.log.len() as u64;
    let end = job.volume.generation.min(job.mark.saturating_add(n));
    for change in job.mark..end {
        let section = s.log[(change % n) as usize] as usize;
        if let Some(last) = s.last.get_mut(section) {
            *last = change + 1;
        }
    }
    s
}

impl Fault {
    /// The row of a section that was measured, of which chunk_faces wrote a list.
    fn spoil(self, list: &[i32], rates: &[u32], cut: u32, of: &mut [u64]) {
        of[1] += u64::from(self == Self::Faces && of[0] > 0);
        let left_out = match self {
            Self::Last => list.chunks_exact(NUMBERS).last(),
            Self::Full => last_of_full_slice(list),
            _ => None,
        };
        let lost = row(&cuts(left_out.unwrap_or_default()), rates, cut);
        of.iter_mut().zip(lost).for_each(|(n, lost)| *n -= lost);
    }
}

/// The 256th panel of the first slice that has one.
fn last_of_full_slice(list: &[i32]) -> Option<&[i32]> {
    let mut end = 0;
    slices(list).into_iter().find_map(|panels| {
        end += panels * NUMBERS;
        (panels == 256).then(|| &list[end - NUMBERS..end])
    })
}
