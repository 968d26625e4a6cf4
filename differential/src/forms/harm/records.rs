//! Damage to the records of cells.

use super::{Good, Hurt, hurt};
use crate::ffi::Volume;
use crate::forms::encoder::{Form, HEAD, Record};
use crate::model;
use crate::rng::Rng;

/// A kind that is none, or a second kind 1, in the place of a record's or the digest's.
pub fn unknown(good: &Good, rng: &mut Rng) -> Option<Hurt> {
    let record = rng.below(good.form.records.len() as u64 + 1) as usize;
    let mut bytes = good.bytes.clone();
    bytes[HEAD + record * 7] = rng.pick(&[1, 3, 4, 5, 6, 7, 128, 255]);
    hurt(bytes)
}

/// Their digest is the same: in either order the stand is filled with them.
pub fn swap(good: &Good, rng: &mut Rng) -> Option<Hurt> {
    let (a, b) = (good.some_record(rng)?, good.some_record(rng)?);
    let mut form = good.form.clone();
    form.records.swap(a, b);
    if a == b {
        return None;
    }
    good.altered(&form, rng)
}

/// A place after a record: the next one, or any.
fn later(form: &Form, record: usize, rng: &mut Rng) -> usize {
    let left = (form.records.len() - record) as u64;
    let far = rng.below(left) as usize;
    record + 1 + rng.pick(&[0, far])
}

/// With the digest that it had, or that of both terms taken in.
pub fn repeat(good: &Good, rng: &mut Rng) -> Option<Hurt> {
    let mut form = good.form.clone();
    let record = good.some_record(rng)?;
    let to = later(&form, record, rng);
    form.records.insert(to, form.records[record]);
    good.altered(&form, rng)
}

/// With the digest of one of the two finishes, or of both.
pub fn two_finishes(good: &Good, rng: &mut Rng) -> Option<Hurt> {
    let mut form = good.form.clone();
    let at = good.some_record(rng)?;
    let mut other = form.records[at];
    other.finish = other_finish(other.finish, rng);
    form.records[at] = other;
    let last = form.digest();
    form.records[at] = good.form.records[at];
    let to = later(&form, at, rng);
    form.records.insert(to, other);
    if rng.chance(30) {
        let retargeted = true;
        let bytes = form.sealed(last);
        return Some(Hurt { bytes, retargeted });
    }
    good.altered(&form, rng)
}

/// Another finish, occupied.
fn other_finish(finish: u16, rng: &mut Rng) -> u16 {
    let next = finish.wrapping_add(1 + rng.below(65_534) as u16);
    if next == 0 { (finish ^ 1) | 2 } else { next }
}

/// A cell's finish made empty, or an empty cell recorded: the digest is that of the others.
pub fn empty(good: &Good, rng: &mut Rng) -> Option<Hurt> {
    let mut form = good.form.clone();
    if rng.chance(50) {
        let record = good.some_record(rng)?;
        form.records[record].finish = 0;
    } else {
        put(&mut form, 0, model::holds, rng)?;
    }
    good.altered(&form, rng)
}

/// The cell named from the section before, or any index; with the digest as if the cell were there.
pub fn far_within(good: &Good, rng: &mut Rng) -> Option<Hurt> {
    let mut form = good.form.clone();
    let at = good.some_record(rng)?;
    let record = &mut form.records[at];
    if record.section > 0 && rng.chance(70) {
        record.section -= 1;
        record.within += 4_096;
        let retargeted = true;
        let bytes = form.sealed(good.digest);
        return Some(Hurt { bytes, retargeted });
    }
    record.within = rng.pick(&[4_096, 4_097, 8_191, 65_535, 4_096 + record.within]);
    good.altered(&form, rng)
}

/// One of a section that the stand has not, last.
pub fn far_section(good: &Good, rng: &mut Rng) -> Option<Hurt> {
    let mut form = good.form.clone();
    let next = model::sections(form.header()) as u64;
    let (far, within) = (rng.below(65_536), rng.below(4_096) as u16);
    let section = next + rng.pick(&[0, 0, 1, far]);
    form.records.push(Record {
        section: u16::try_from(section).ok()?,
        within: rng.pick(&[0, 0, within]),
        finish: 1 + rng.below(3) as u16,
    });
    good.altered(&form, rng)
}

/// A slot beyond the size, in order; with the digest as if the cell were there.
pub fn beyond(good: &Good, rng: &mut Rng) -> Option<Hurt> {
    let mut form = good.form.clone();
    let finish = 1 + rng.below(3) as u16;
    put(&mut form, finish, |v, slot| !model::holds(v, slot), rng)?;
    good.altered(&form, rng)
}

/// Puts a record in order, for a slot of a kind that has none: the first of its kind from some slot on.
fn put(form: &mut Form, finish: u16, fits: fn(Volume, usize) -> bool, rng: &mut Rng) -> Option<()> {
    let v = form.header();
    let slots = model::sections(v) * 4_096;
    let from = rng.below(slots as u64) as usize;
    let taken = |slot: usize| form.records.binary_search_by_key(&slot, |r| r.slot());
    let free = |slot: &usize| fits(v, *slot) && taken(*slot).is_err();
    let slot = (from..slots).chain(0..from).find(free)?;
    let at = taken(slot).err()?;
    form.records.insert(at, Record::at(slot, finish));
    Some(())
}

pub fn leave_out(good: &Good, rng: &mut Rng) -> Option<Hurt> {
    let mut form = good.form.clone();
    form.records.remove(good.some_record(rng)?);
    good.altered(&form, rng)
}

pub fn refinish(good: &Good, rng: &mut Rng) -> Option<Hurt> {
    let mut form = good.form.clone();
    let record = good.some_record(rng)?;
    let finish = form.records[record].finish;
    form.records[record].finish = other_finish(finish, rng);
    good.altered(&form, rng)
}

pub fn add(good: &Good, rng: &mut Rng) -> Option<Hurt> {
    let mut form = good.form.clone();
    let finish = 1 + rng.below(3) as u16;
    put(&mut form, finish, model::holds, rng)?;
    good.altered(&form, rng)
}
