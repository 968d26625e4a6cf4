//! Damage to the first record.

use super::{Good, Hurt, hurt};
use crate::calls::{cell_of, extent_of};
use crate::forms::encoder::Form;
use crate::model;
use crate::rng::Rng;

const LAST: i32 = i32::MAX;

/// Origin and size, axis by axis.
type Shape = ([i32; 3], [i32; 3]);

fn shape(form: &Form) -> Shape {
    let (o, n) = (form.origin, form.size);
    ([o.x, o.y, o.z], [n.x, n.y, n.z])
}

/// The same records under another origin and size.
fn under((origin, size): Shape, good: &Good) -> Form {
    Form {
        origin: cell_of(origin),
        size: extent_of(size),
        records: good.form.records.clone(),
    }
}

/// One size below 1, with the digest of the stand that opening would make of it; or the other sizes at their ends.
pub fn low(good: &Good, rng: &mut Rng) -> Option<Hurt> {
    let (origin, mut size) = shape(&good.form);
    let huge = rng.chance(30);
    if huge {
        size = [LAST; 3];
    }
    size[rng.below(3) as usize] = rng.pick(&[0, 0, -1, i32::MIN]);
    let form = under((origin, size), good);
    if huge {
        return hurt(form.sealed(good.digest));
    }
    good.altered(&form, rng)
}

/// The form under a head that 1 or 2 refuses: whole, or nothing after the head.
fn refused(shape: Shape, good: &Good, rng: &mut Rng) -> Option<Hurt> {
    let mut bytes = under(shape, good).sealed(good.digest);
    if rng.chance(30) {
        bytes.truncate(super::HEAD + rng.below(3) as usize);
    }
    hurt(bytes)
}

/// More than 65,536 sections, by one or many.
fn widened(good: &Good, rng: &mut Rng) -> (usize, Shape) {
    let (origin, mut size) = shape(&good.form);
    let axis = rng.below(3) as usize;
    size[axis] = rng.pick(&[1_048_577, 1_048_577, LAST, LAST - 14, LAST - 15]);
    if rng.chance(20) {
        size = [LAST; 3];
    }
    (axis, (origin, size))
}

pub fn many(good: &Good, rng: &mut Rng) -> Option<Hurt> {
    let (_, (_, size)) = widened(good, rng);
    let origin = size.map(|n| if n > 1_000_000 { i32::MIN } else { 0 });
    refused((origin, size), good, rng)
}

pub fn both(good: &Good, rng: &mut Rng) -> Option<Hurt> {
    let (axis, (mut origin, size)) = widened(good, rng);
    origin[axis] = rng.pick(&[LAST, LAST - size[axis] + 2]);
    refused((origin, size), good, rng)
}

/// The last cell just past the end, or far past it.
pub fn past(good: &Good, rng: &mut Rng) -> Option<Hurt> {
    let (mut origin, mut size) = shape(&good.form);
    let axis = rng.below(3) as usize;
    size[axis] = size[axis].max(2);
    origin[axis] = rng.pick(&[LAST, LAST - size[axis] + 2]);
    refused((origin, size), good, rng)
}

/// A little larger or smaller, where such a stand opens.
pub fn resize(good: &Good, rng: &mut Rng) -> Option<Hurt> {
    let (origin, mut size) = shape(&good.form);
    let axis = rng.below(3) as usize;
    size[axis] += rng.pick(&[1, 1, -1, 16, -16]);
    let form = under((origin, size), good);
    opens(&form).then(|| good.altered(&form, rng))?
}

pub fn shift(good: &Good, rng: &mut Rng) -> Option<Hurt> {
    let (mut origin, size) = shape(&good.form);
    let axis = rng.below(3) as usize;
    let any = rng.next() as i32;
    origin[axis] = rng.pick(&[
        origin[axis].wrapping_add(1),
        origin[axis].wrapping_sub(1),
        i32::MIN,
        LAST - size[axis] + 1,
        any,
    ]);
    let form = under((origin, size), good);
    let moved = form.origin != good.form.origin;
    (moved && opens(&form)).then(|| good.altered(&form, rng))?
}

fn opens(form: &Form) -> bool {
    model::open_code(form.origin, form.size) == 0
}
