//! Worked forms: their bytes, lengths and digests, and what must be answered to broken ones.

use super::check::Check;
use super::encoder::{Form, HEAD, Record, head, tail};
use crate::calls::{cell_of, extent_of};
use crate::ffi::{Extent, Volume};
use crate::model;
use crate::ours::{self, Storage};
use crate::pair::Same;

const LAST: i32 = i32::MAX;
const ONE: [i32; 3] = [1; 3];
const ROW: [i32; 3] = [17, 1, 1];

/// A stand by origin, size, and a finish for each distance from the origin.
pub struct Stand {
    origin: [i32; 3],
    size: [i32; 3],
    finish: fn(i32, i32, i32) -> u16,
}

impl Stand {
    /// Reached by calls on our side, from zeros: 65,536 sections are mapped only where they are written.
    fn reach(&self) -> (Volume, Storage) {
        let (origin, size) = (cell_of(self.origin), extent_of(self.size));
        let mut s = Storage::zeros(ours::sections_of(size));
        let mut v = ours::header(origin, size).volume;
        let [a, b, c] = self.origin;
        for (x, y, z) in places(self.size) {
            let finish = (self.finish)(x, y, z);
            if finish != 0 {
                v = ours::set(v, &mut s, cell_of([a + x, b + y, c + z]), finish).volume;
            }
        }
        (v, s)
    }

    /// Its form by the encoder.
    pub fn form(&self) -> Form {
        let (v, s) = self.reach();
        Form::of(v, &s.cells)
    }
}

fn places([x, y, z]: [i32; 3]) -> impl Iterator<Item = (i32, i32, i32)> {
    (0..z).flat_map(move |c| (0..y).flat_map(move |b| (0..x).map(move |a| (a, b, c))))
}

const fn stand(origin: [i32; 3], size: [i32; 3], finish: fn(i32, i32, i32) -> u16) -> Stand {
    Stand {
        origin,
        size,
        finish,
    }
}

/// Small stands, and their forms in hexadecimal.
const SMALL: [(Stand, &str); 5] = [
    (
        stand([0; 3], ONE, |_, _, _| 0),
        "01 000000000000000000000000 010000000100000001000000 00 9719169152a4bc0b",
    ),
    (
        stand([0; 3], ONE, |_, _, _| 1),
        "01 000000000000000000000000 010000000100000001000000 02 0000 0000 0100 00 2437ef5f4f8e9006",
    ),
    (
        stand([-1, 2, 3], ONE, |_, _, _| 3),
        "01 ffffffff0200000003000000 010000000100000001000000 02 0000 0000 0300 00 120c456556f34670",
    ),
    (
        stand([0; 3], ROW, |x, _, _| if x == 16 { 3 } else { 0 }),
        "01 000000000000000000000000 110000000100000001000000 02 0100 0000 0300 00 7d7dc79a9d227c21",
    ),
    (
        stand([LAST; 3], ONE, |_, _, _| 65_535),
        "01 ffffff7fffffff7fffffff7f 010000000100000001000000 02 0000 0000 ffff 00 70debba68e93ec33",
    ),
];

/// A block, and a row of 17.
pub const BLOCK: Stand = stand([0; 3], ONE, |_, _, _| 1);
pub const BLOCKS: Stand = stand([0; 3], ROW, |_, _, _| 3);

/// Stands with their sections, occupied cells, bytes and digest.
const TABLE: [(Stand, [usize; 3], u64); 6] = [
    (BLOCKS, [2, 17, 153], 0x7cdf_ea8f_8bc6_ee80),
    (
        stand([-3, -2, -1], [18, 17, 2], |x, y, z| {
            ((7 * x + 3 * y + 5 * z) % 5) as u16
        }),
        [4, 488, 3_450],
        0x759f_7ccd_313c_4a6c,
    ),
    (
        stand([2_147_483_615, i32::MIN, 0], [33, 1, 17], |x, _, z| {
            if (x + z) % 3 == 0 { 65_535 } else { 0 }
        }),
        [6, 187, 1_343],
        0x045c_b3b4_48bf_3bbf,
    ),
    (
        stand([0; 3], [1_048_576, 1, 1], |x, _, _| match x {
            0 => 1,
            65_535 => 2,
            1_048_575 => 3,
            _ => 0,
        }),
        [65_536, 3, 55],
        0xf3ad_d4d1_65b7_bbf9,
    ),
    (
        stand([0; 3], [16; 3], |_, _, _| 0),
        [1, 0, 34],
        0xfee0_ddcf_f1cf_5ed8,
    ),
    (
        stand([0; 3], [16; 3], |_, _, _| 9),
        [1, 4_096, 28_706],
        0x94e1_f48d_fa0b_d774,
    ),
];

pub fn run(check: &mut Check) -> Same {
    for (stand, hex) in &SMALL {
        let bytes = bytes_of(hex);
        check.same_bytes("form by the encoder", &stand.form().bytes(), &bytes)?;
        whole(check, stand, &bytes)?;
    }
    for (stand, numbers, digest) in &TABLE {
        let form = stand.form();
        let sections = model::sections(form.header());
        let own = [sections, form.records.len(), form.length()];
        check.same("sections, cells, bytes", own, *numbers)?;
        check.same("digest by the encoder", form.digest(), *digest)?;
        whole(check, stand, &form.sealed(*digest))?;
    }
    refused_stores(check)?;
    for (name, form, sections, code) in refusals() {
        let got = check.load(&form, &Storage::dirty(sections))?;
        check.same(name, got, code)?;
    }
    Ok(())
}

pub fn bytes_of(hex: &str) -> Vec<u8> {
    let digits: Vec<u32> = hex.chars().filter_map(|c| c.to_digit(16)).collect();
    let byte = |pair: &[u32]| (pair[0] * 16 + pair[1]) as u8;
    digits.chunks(2).map(byte).collect()
}

/// The forms of the small stands, and that of the row.
pub fn small() -> Vec<Vec<u8>> {
    let small = SMALL.iter().map(|(_, hex)| bytes_of(hex));
    small.chain([BLOCKS.form().bytes()]).collect()
}

/// A stand stored, and its form loaded.
fn whole(check: &mut Check, stand: &Stand, bytes: &[u8]) -> Same {
    let (v, s) = stand.reach();
    let value = check.ours.stored_length(v, &s.cells).value;
    check.same("length", value, bytes.len() as u64)?;
    check.stores(v, &s.cells, &[-1, 0, 9])?;
    let got = ours::digest(v, &s.hashes).value;
    let end = bytes.last_chunk().map_or(0, |d| u64::from_le_bytes(*d));
    check.same("digest of the stand", got, end)?;
    let lists = match s.hashes.len() {
        n if n > 64 => Storage::zeros(n),
        n => Storage::dirty(n),
    };
    let code = check.load(bytes, &lists)?;
    check.same("load", code, 0)
}

/// 3 before 4 before 15.
fn refused_stores(check: &mut Check) -> Same {
    let (v, s) = BLOCKS.reach();
    let forged = Volume {
        chunks: Extent { x: 3, ..v.chunks },
        ..v
    };
    let less = &s.cells[1..];
    for (v, cells, len, code) in [
        (forged, &s.cells[..], 153, 3),
        (forged, less, 0, 3),
        (v, less, 153, 4),
        (v, less, 152, 4),
        (v, &s.cells[..], 152, 15),
        (v, &s.cells[..], 0, 15),
        (v, &s.cells[..], 153, 0),
    ] {
        let got = check.store(v, cells, len)?;
        check.same("store", got, code)?;
        check.stores(v, cells, &[])?;
    }
    Ok(())
}

/// A name, a form, the sections that the lists are for, and the number.
type Refusal = (&'static str, Vec<u8>, usize, u32);

fn refusals() -> Vec<Refusal> {
    let mut all = broken_heads();
    all.extend(broken_ends());
    all.extend(broken_cells());
    all
}

fn head_of(origin: [i32; 3], size: [i32; 3]) -> Vec<u8> {
    head(cell_of(origin), extent_of(size)).to_vec()
}

fn broken_heads() -> Vec<Refusal> {
    let one = head_of([0; 3], ONE);
    let fresh = Form {
        records: Vec::new(),
        ..BLOCK.form()
    };
    let no_size = [head_of([0; 3], [0, 1, 1]), tail(fresh.digest()).to_vec()].concat();
    let other = [&[3], &BLOCK.form().bytes()[1..]].concat();
    vec![
        ("no bytes, no lists", Vec::new(), 0, 14),
        ("no bytes", Vec::new(), 1, 14),
        ("24 bytes of a head", one[..24].to_vec(), 0, 14),
        ("a head alone", one.clone(), 1, 14),
        ("a head alone, no lists", one, 0, 4),
        ("size 0", no_size, 1, 14),
        (
            "size 0, the others large",
            head_of([0; 3], [0, LAST, LAST]),
            0,
            14,
        ),
        (
            "a section too many",
            head_of([0; 3], [1_048_577, 1, 1]),
            0,
            1,
        ),
        ("past i32", head_of([LAST, 0, 0], [2, 1, 1]), 0, 2),
        ("both", head_of([LAST, 0, 0], [1_048_577, 1, 1]), 0, 1),
        ("kind 3 first", other, 1, 14),
    ]
}

fn broken_ends() -> Vec<Refusal> {
    let form = BLOCK.form();
    let bytes = form.bytes();
    let digest = form.digest();
    let wrong = form.sealed(digest ^ 1);
    let more = |more: &[u8]| [&bytes[..], more].concat();
    let early = [&bytes[..HEAD], &tail(digest), &form.records[0].bytes()].concat();
    vec![
        ("whole", bytes.clone(), 1, 0),
        ("whole, lists of two sections", bytes.clone(), 2, 4),
        ("wrong digest, lists of two sections", wrong.clone(), 2, 4),
        ("wrong digest", wrong, 1, 14),
        ("a byte after", more(&[0]), 1, 14),
        ("two kinds 0", more(&tail(digest)), 1, 14),
        ("two kinds 1", [&bytes[..HEAD], &bytes].concat(), 1, 14),
        ("digest before cells", early, 1, 14),
    ]
}

fn broken_cells() -> Vec<Refusal> {
    let row = |cells: &[[u16; 3]]| {
        let record = |[section, within, finish]: [u16; 3]| Record {
            section,
            within,
            finish,
        };
        Form {
            records: cells.iter().copied().map(record).collect(),
            ..BLOCKS.form()
        }
    };
    let one = |cells: &[[u16; 3]]| Form {
        size: extent_of(ONE),
        ..row(cells)
    };
    let (cell, last) = ([0, 0, 3], [1, 0, 3]);
    let digest = row(&[cell]).digest();
    let unknown = {
        let mut bytes = row(&[cell]).bytes();
        bytes[HEAD] = 4;
        bytes
    };
    vec![
        ("in order", row(&[cell, last]).bytes(), 2, 0),
        ("out of order", row(&[last, cell]).bytes(), 2, 14),
        ("empty finish", row(&[[0, 0, 0]]).bytes(), 2, 14),
        ("repeated", row(&[cell, cell]).bytes(), 2, 14),
        (
            "repeated, digest of one",
            row(&[cell, cell]).sealed(digest),
            2,
            14,
        ),
        ("beyond the size", row(&[[0, 16, 3]]).bytes(), 2, 14),
        (
            "beyond the size, last section",
            row(&[[1, 1, 3]]).bytes(),
            2,
            14,
        ),
        (
            "within 4,096",
            row(&[[0, 4_096, 3]]).sealed(row(&[last]).digest()),
            2,
            14,
        ),
        ("section 1 of one", one(&[last]).bytes(), 1, 14),
        (
            "section 1 of one, after a cell",
            one(&[cell, last]).bytes(),
            1,
            14,
        ),
        ("kind 4", unknown, 2, 14),
    ]
}
