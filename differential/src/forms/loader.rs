//! Loading by document 02, 2.2, record after record: the number by which it is refused, or what the form holds.

use super::encoder::{Form, HEAD, Record};
use crate::calls::{cell_of, extent_of};
use crate::ffi::{Cell, Extent};
use crate::model;
use crate::ours::Storage;

/// Bytes not read yet.
struct Rest<'a>(&'a [u8]);

impl Rest<'_> {
    fn take<const N: usize>(&mut self) -> Option<[u8; N]> {
        let (first, rest) = self.0.split_first_chunk()?;
        self.0 = rest;
        Some(*first)
    }

    fn short(&mut self) -> Option<u16> {
        self.take().map(u16::from_le_bytes)
    }

    fn record(&mut self) -> Option<Record> {
        Some(Record {
            section: self.short()?,
            within: self.short()?,
            finish: self.short()?,
        })
    }
}

/// Origin and size, where a whole kind 1 comes first with sizes of 1 or more.
pub fn head(form: &[u8]) -> Option<(Cell, Extent)> {
    let mut rest = Rest(form.get(..HEAD)?);
    if rest.take()? != [1] {
        return None;
    }
    let mut numbers = [0; 6];
    for n in &mut numbers {
        *n = i32::from_le_bytes(rest.take()?);
    }
    let [a, b, c, x, y, z] = numbers;
    let sizes = [x, y, z];
    let whole = sizes.iter().all(|n| *n >= 1);
    whole.then_some((cell_of([a, b, c]), extent_of(sizes)))
}

/// What a form holds whose stand opens; none where 14 applies.
fn read(bytes: &[u8]) -> Option<Form> {
    let (origin, size) = head(bytes)?;
    let mut form = Form {
        origin,
        size,
        records: Vec::new(),
    };
    let mut rest = Rest(&bytes[HEAD..]);
    loop {
        match rest.take()? {
            [2] => {
                let record = rest.record()?;
                if !may_follow(&form, record) {
                    return None;
                }
                form.records.push(record);
            }
            [0] => {
                let digest = rest.take().map(u64::from_le_bytes)?;
                return (rest.0.is_empty() && digest == form.digest()).then_some(form);
            }
            _ => return None,
        }
    }
}

/// A cell of the stand, occupied, after the cell before it by section, then by index.
fn may_follow(form: &Form, record: Record) -> bool {
    let v = form.header();
    let section = usize::from(record.section);
    let before = form.records.last().map(|r| (r.section, r.within));
    record.finish != 0
        && record.within <= 4_095
        && section < model::sections(v)
        && model::holds(v, record.slot())
        && before.is_none_or(|b| b < (record.section, record.within))
}

/// What a form holds, or the number by which loading into these lists is refused; without lists, its header alone.
pub fn load(form: &[u8], lists: Option<&Storage>) -> Result<Form, u32> {
    if let Some((origin, size)) = head(form) {
        let code = model::open_code(origin, size);
        if code != 0 {
            return Err(code);
        }
        let v = model::opened(origin, size);
        let code = lists.map_or(0, |lists| model::storage_code(v, lists));
        if code != 0 {
            return Err(code);
        }
    }
    read(form).ok_or(14)
}
