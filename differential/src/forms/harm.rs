//! Damaged forms: each kind of damage, and the number that document 02, 2.2 gives it where it gives one alone.

mod heads;
mod records;

use super::encoder::{Form, HEAD, head, tail};
use crate::rng::Rng;

/// A form as storing writes it.
pub struct Good {
    pub form: Form,
    pub bytes: Vec<u8>,
    digest: u64,
}

impl Good {
    pub fn of(form: Form) -> Self {
        let digest = form.digest();
        Self {
            bytes: form.sealed(digest),
            digest,
            form,
        }
    }

    /// The place of a record, if there is one.
    fn some_record(&self, rng: &mut Rng) -> Option<usize> {
        let n = self.form.records.len() as u64;
        (n > 0).then(|| rng.below(n) as usize)
    }

    /// The form altered: with the digest that it had, or, three in four times, with that of what it then holds.
    fn altered(&self, form: &Form, rng: &mut Rng) -> Option<Hurt> {
        let retargeted = rng.chance(75);
        let bytes = if retargeted {
            form.bytes()
        } else {
            form.sealed(self.digest)
        };
        Some(Hurt { bytes, retargeted })
    }
}

pub struct Hurt {
    pub bytes: Vec<u8>,
    /// Given the digest of what it then holds.
    pub retargeted: bool,
}

pub struct Harm {
    pub name: &'static str,
    /// The number in lists that fit the stand, where it is the same for each form.
    pub code: Option<u32>,
    /// The damaged form; none where this one cannot be damaged so.
    pub make: fn(&Good, &mut Rng) -> Option<Hurt>,
}

const fn harm(
    name: &'static str,
    code: Option<u32>,
    make: fn(&Good, &mut Rng) -> Option<Hurt>,
) -> Harm {
    Harm { name, code, make }
}

pub const HARMS: [Harm; 28] = [
    harm("a bit flipped", None, flip),
    harm("a byte changed", None, change),
    harm("cut short", Some(14), cut),
    harm("bytes put in", None, put_in),
    harm("bytes left out", None, leave_out),
    harm("bytes after the digest", Some(14), go_on),
    harm("any bytes after a head", Some(14), any),
    harm("another digest", Some(14), reseal),
    harm("a digest before the cells", Some(14), end_first),
    harm("two heads", Some(14), two_heads),
    harm("another kind first", Some(14), other_first),
    harm("an unknown kind", Some(14), records::unknown),
    harm("two cells swapped", Some(14), records::swap),
    harm("a cell repeated", Some(14), records::repeat),
    harm("a cell with two finishes", Some(14), records::two_finishes),
    harm("an empty finish", Some(14), records::empty),
    harm("an index within above 4,095", Some(14), records::far_within),
    harm("a section beyond", Some(14), records::far_section),
    harm("a cell beyond the size", Some(14), records::beyond),
    harm("a cell left out", None, records::leave_out),
    harm("another finish", None, records::refinish),
    harm("a cell more", None, records::add),
    harm("a size below 1", Some(14), heads::low),
    harm("too many sections", Some(1), heads::many),
    harm("last cell past i32", Some(2), heads::past),
    harm(
        "too many sections, last cell past i32",
        Some(1),
        heads::both,
    ),
    harm("another size", None, heads::resize),
    harm("another origin", None, heads::shift),
];

fn hurt(bytes: Vec<u8>) -> Option<Hurt> {
    Some(Hurt {
        bytes,
        retargeted: false,
    })
}

/// Any bytes, at least one.
fn some_bytes(most: u64, rng: &mut Rng) -> Vec<u8> {
    let count = 1 + rng.below(most);
    (0..count).map(|_| rng.next() as u8).collect()
}

fn flip(good: &Good, rng: &mut Rng) -> Option<Hurt> {
    let mut bytes = good.bytes.clone();
    let at = rng.below(bytes.len() as u64) as usize;
    bytes[at] ^= 1 << rng.below(8);
    hurt(bytes)
}

fn change(good: &Good, rng: &mut Rng) -> Option<Hurt> {
    let mut bytes = good.bytes.clone();
    let at = rng.below(bytes.len() as u64) as usize;
    bytes[at] = bytes[at].wrapping_add(1 + rng.below(255) as u8);
    hurt(bytes)
}

/// Anywhere, or at the end of a record.
fn cut(good: &Good, rng: &mut Rng) -> Option<Hurt> {
    let len = good.bytes.len();
    let whole = HEAD + rng.below(good.form.records.len() as u64 + 1) as usize * 7;
    let anywhere = rng.below(len as u64) as usize;
    let keep = rng.pick(&[whole, anywhere]);
    hurt(good.bytes[..keep].to_vec())
}

fn put_in(good: &Good, rng: &mut Rng) -> Option<Hurt> {
    let mut bytes = good.bytes.clone();
    let at = rng.below(bytes.len() as u64 + 1) as usize;
    bytes.splice(at..at, some_bytes(8, rng));
    hurt(bytes)
}

fn leave_out(good: &Good, rng: &mut Rng) -> Option<Hurt> {
    let mut bytes = good.bytes.clone();
    let at = rng.below(bytes.len() as u64) as usize;
    let end = (at + rng.pick(&[1, 2, 7, 9, 25])).min(bytes.len());
    bytes.drain(at..end);
    hurt(bytes)
}

/// A byte, the digest again, the form again, any bytes.
fn go_on(good: &Good, rng: &mut Rng) -> Option<Hurt> {
    let more = match rng.below(4) {
        0 => vec![0],
        1 => tail(good.digest).to_vec(),
        2 => good.bytes.clone(),
        _ => some_bytes(16, rng),
    };
    hurt([&good.bytes[..], &more].concat())
}

fn any(good: &Good, rng: &mut Rng) -> Option<Hurt> {
    hurt([&good.bytes[..HEAD], &some_bytes(60, rng)].concat())
}

fn reseal(good: &Good, rng: &mut Rng) -> Option<Hurt> {
    let (bit, any) = (1 << rng.below(64), rng.next().max(1));
    let other = rng.pick(&[1, 1 << 63, bit, any]);
    hurt(good.form.sealed(good.digest ^ other))
}

fn end_first(good: &Good, _: &mut Rng) -> Option<Hurt> {
    let (records, end) = good.bytes[HEAD..].split_at(good.form.records.len() * 7);
    if records.is_empty() {
        return None;
    }
    hurt([&good.bytes[..HEAD], end, records].concat())
}

fn two_heads(good: &Good, _: &mut Rng) -> Option<Hurt> {
    hurt([&good.bytes[..HEAD], &good.bytes].concat())
}

/// A cell, the digest or an unknown kind in the place of kind 1, or before it.
fn other_first(good: &Good, rng: &mut Rng) -> Option<Hurt> {
    let mut bytes = good.bytes.clone();
    let kind = rng.pick(&[0, 2, 3, 4, 255]);
    if rng.chance(50) {
        bytes[0] = kind;
        return hurt(bytes);
    }
    let first = match kind {
        0 => tail(good.digest).to_vec(),
        _ => [&[kind], &head(good.form.origin, good.form.size)[1..7]].concat(),
    };
    hurt([first, bytes].concat())
}
