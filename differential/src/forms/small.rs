//! Small forms in full: every prefix, and every change of one byte.

use super::check::Check;
use super::worked::{BLOCK, BLOCKS, Stand, small};
use crate::ours::Storage;
use crate::pair::{Difference, Same};
use crate::trial::tally::{Counts, count};

/// Lists for the stand of a small form: two sections for a row of 17, else one.
fn fitting(form: &[u8]) -> Storage {
    Storage::dirty(if form[13] == 17 { 2 } else { 1 })
}

/// Fitting lists: 14 for each. Empty ones: 14 up to a whole head, from there on 4.
pub fn prefixes(check: &mut Check) -> Same {
    for form in small() {
        let lists = fitting(&form);
        for len in 0..form.len() {
            let code = check.load(&form[..len], &lists)?;
            check.same("prefix", code, 14)?;
            let code = check.load(&form[..len], &Storage::default())?;
            check.same("prefix, no lists", code, if len < 25 { 14 } else { 4 })?;
        }
    }
    Ok(())
}

/// A stand, and how many of its form's one-byte changes are answered by 1, 4 and 14; none by another number.
const CHANGES: [(Stand, [u64; 3]); 2] = [
    (BLOCK, [1_101, 1_527, 7_827]),
    (BLOCKS, [1_117, 1_511, 36_387]),
];

pub fn changes(check: &mut Check) -> Same {
    for (stand, [one, four, fourteen]) in &CHANGES {
        let codes = changed(check, &stand.form().bytes())?;
        let wanted = Counts::from([(1, *one), (4, *four), (14, *fourteen)]);
        check.same("answers to one-byte changes", codes, wanted)?;
    }
    Ok(())
}

/// Each byte at each of its other 255 values: the answers.
fn changed(check: &mut Check, form: &[u8]) -> Result<Counts<u32>, Difference> {
    let lists = fitting(form);
    let mut codes = Counts::new();
    let mut form = form.to_vec();
    for at in 0..form.len() {
        let own = form[at];
        for other in (0..=255).filter(|byte| *byte != own) {
            form[at] = other;
            count(&mut codes, check.load(&form, &lists)?);
        }
        form[at] = own;
    }
    Ok(codes)
}
