//! Worked pairs: hashes and digests worked out by a program of its own from document 01's term and digest.

use super::check::{Change, Check, section_of};
use super::stand::Stand;
use super::step::Step;
use crate::calls::{Call, cell_of, extent_of};
use crate::ours::{self, Storage};
use crate::pair::{Difference, MODEL, Same, agree};

const LAST: i32 = i32::MAX;

/// Terms by index within a section: of finish 1, then of 65,535, then of 256.
const AT_0: u64 = 0x910a_2dec_8902_5cc1;
const AT_15: u64 = 0x890e_0984_5cfa_952f;
const AT_272: u64 = 0x7db0_2624_8582_5934;
const AT_4095: u64 = 0x97df_afd6_8068_7649;
const MOST_AT_0: u64 = 0xcf0f_635e_85b8_5d76;
const MOST_AT_4095: u64 = 0x7ac4_d016_8887_617a;
const HIGH_AT_272: u64 = 0x635f_ea46_ce44_6591;

/// One of two stands: the finish of the cell in which they differ, its hashes, its digest.
type Side = (u16, &'static [u64], u64);

pub struct Pair {
    origin: [i32; 3],
    size: [i32; 3],
    /// Cells that have finish 1 in both.
    both: &'static [[i32; 3]],
    /// The cell in which they differ, and its section.
    cell: [i32; 3],
    section: usize,
    sides: [Side; 2],
}

/// A stand of one cell.
const fn block(at: i32, sides: [Side; 2]) -> Pair {
    Pair {
        origin: [at; 3],
        size: [1; 3],
        both: &[],
        cell: [at; 3],
        section: 0,
        sides,
    }
}

/// A row of 17, so that x = 15 ends section 0, and x = 16 is section 1.
const fn row(both: &'static [[i32; 3]], x: i32, sides: [Side; 2]) -> Pair {
    Pair {
        origin: [0; 3],
        size: [17, 1, 1],
        both,
        cell: [x, 0, 0],
        section: (x / 16) as usize,
        sides,
    }
}

const EMPTY: Side = (0, &[0], 0x0bbc_a452_9116_1997);
const BLOCK: Side = (1, &[AT_0], 0x0690_8e4f_5fef_3724);
/// Rows of 17: empty, then hashes and digest with finish 1 at x = 15, at x = 16, at both.
const NO_ROW: Side = (0, &[0, 0], 0x6188_42a8_88e0_1906);
const AT_15_ALONE: (&[u64], u64) = (&[AT_15, 0], 0x2eba_6278_74ad_6aa1);
const AT_16_ALONE: (&[u64], u64) = (&[0, AT_0], 0x70db_2fba_27e1_2879);
const AT_BOTH: (&[u64], u64) = (&[AT_15, AT_0], 0x9986_6782_3bd4_49ae);

/// One of the rows, with the finish of the cell that changes.
const fn with(finish: u16, stand: (&'static [u64], u64)) -> Side {
    (finish, stand.0, stand.1)
}

pub const PAIRS: [Pair; 10] = [
    block(0, [EMPTY, BLOCK]),
    block(0, [BLOCK, (65_535, &[MOST_AT_0], 0x3aa7_5ebd_c4a4_1381)]),
    block(
        LAST,
        [
            (65_535, &[MOST_AT_0], 0x33ec_938e_a6bb_de70),
            (0, &[0], 0xcb17_5d0e_f545_7012),
        ],
    ),
    row(&[], 15, [NO_ROW, with(1, AT_15_ALONE)]),
    row(&[], 16, [with(1, AT_16_ALONE), NO_ROW]),
    row(&[[15, 0, 0]], 16, [with(0, AT_15_ALONE), with(1, AT_BOTH)]),
    row(&[[16, 0, 0]], 15, [with(1, AT_BOTH), with(0, AT_16_ALONE)]),
    row(
        &[[15, 0, 0]],
        16,
        [
            with(1, AT_BOTH),
            (65_535, &[AT_15, MOST_AT_0], 0xa15b_ff24_dd83_4377),
        ],
    ),
    // The last cell of a whole section.
    Pair {
        origin: [0; 3],
        size: [16; 3],
        both: &[],
        cell: [15; 3],
        section: 0,
        sides: [
            (1, &[AT_4095], 0xf490_a097_dc35_e833),
            (65_535, &[MOST_AT_4095], 0x889d_7c4b_aa98_2676),
        ],
    },
    // The last cell of four sections that begin below 0.
    Pair {
        origin: [-16, -17, -1],
        size: [17, 18, 2],
        both: &[],
        cell: [0; 3],
        section: 3,
        sides: [
            (1, &[0, 0, 0, AT_272], 0xefcf_5e39_7838_0ed3),
            (256, &[0, 0, 0, HIGH_AT_272], 0xc1d0_faf4_7dfb_230c),
        ],
    },
];

/// All pairs, up to the first that differs.
pub fn run(check: &mut Check) -> Same {
    for (number, pair) in PAIRS.iter().enumerate() {
        let same = pair.run(check);
        same.map_err(|d| Difference(format!("worked pair {number}: {}", d.0)))?;
    }
    Ok(())
}

impl Pair {
    /// Both stands held to their numbers, then one beside the other.
    fn run(&self, check: &mut Check) -> Same {
        let cell = cell_of(self.cell);
        let mut sides = Vec::new();
        for (list, (finish, hashes, digest)) in self.sides.iter().enumerate() {
            check.list = list;
            let stand = self.reach(check, *finish)?;
            for (chunk, hash) in hashes.iter().enumerate() {
                let got = check.ours.chunk_hash(&stand, chunk);
                check.said("chunk_hash", got, *hash)?;
            }
            check.said("digest", check.ours.digest(&stand), *digest)?;
            sides.push(stand);
        }
        let [one, two] = &mut sides[..] else {
            unreachable!("a pair has two sides");
        };
        agree("section", section_of(one.volume, cell), MODEL, self.section)?;
        let [from, to] = [0, 1].map(|side: usize| self.sides[side].0);
        check.one_off(one, two, Change { cell, from, to })
    }

    /// By sets: the cell last in the first stand, first in the second.
    fn reach(&self, check: &mut Check, finish: u16) -> Result<Stand, Difference> {
        let (origin, size) = (cell_of(self.origin), extent_of(self.size));
        let lists = Storage::dirty(ours::sections_of(size));
        let mut stand = Stand::opened(check, origin, size, lists)?;
        let both = self.both.iter().map(|cell| (*cell, 1));
        let mut sets: Vec<_> = both.chain([(self.cell, finish)]).collect();
        if check.list == 1 {
            sets.reverse();
        }
        for (cell, finish) in sets {
            stand.make(&Step::Call(Call::Set(cell_of(cell), finish)), check)?;
        }
        Ok(stand)
    }
}
