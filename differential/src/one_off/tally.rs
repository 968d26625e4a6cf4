//! What the run did: stands, calls, changes, routes, and comparisons by kind.

use super::check::{Change, section_of};
use super::routes::ROUTES;
use crate::ffi::Volume;
use crate::model::{self, Lies};
use crate::trial::tally::{Counts, count, listed, merge};

#[derive(Clone, Copy)]
pub enum Kind {
    Answer,
    Said,
    Cells,
    Section,
    Hash,
    OtherHash,
    Digest,
    BackHash,
    BackDigest,
}

const NAMES: [&str; 9] = [
    "codes of calls",
    "hashes and digests worked out",
    "readings of all cells inside both stands",
    "sections of changed cells",
    "hashes of the changed cell's section: different",
    "hashes of other sections: the same",
    "digests: different",
    "hashes after the set back: the same",
    "digests after the set back: the same",
];

/// The two lists of calls of each stand.
const LISTS: [&str; 2] = ["first", "second"];
/// The numbers by which calls of both are refused.
const REFUSALS: [u32; 5] = [1, 2, 4, 5, 14];
const CHANGES: [&str; 3] = [
    "empty to occupied",
    "occupied to empty",
    "occupied to occupied",
];
const BOXES: [&str; 3] = ["inside", "across the edge", "beside"];
const SIZES: [&str; 3] = ["1", "2 to 8", "9 to 64"];
const PLACES: [&str; 5] = [
    "in the first section",
    "in another",
    "the stand's first",
    "its last",
    "beside another section",
];
const FINISHES: [&str; 3] = ["0", "1", "65535"];

/// What one of the lists did.
#[derive(Default)]
struct List {
    calls: u64,
    refused: Counts<u32>,
    loads: u64,
    boxes: Counts<&'static str>,
}

#[derive(Default)]
pub struct Tally {
    stands: u64,
    lists: [List; 2],
    sizes: Counts<&'static str>,
    routes: Counts<&'static str>,
    changes: Counts<&'static str>,
    places: Counts<&'static str>,
    finishes: Counts<&'static str>,
    kinds: [u64; NAMES.len()],
}

impl Tally {
    pub fn compared(&mut self, kind: Kind) {
        self.kinds[kind as usize] += 1;
    }

    /// A call of a list, by the number that it must answer.
    pub fn called(&mut self, list: usize, code: u32) {
        self.lists[list].calls += 1;
        if code != 0 {
            count(&mut self.lists[list].refused, code);
        }
    }

    pub fn loaded(&mut self, list: usize) {
        self.lists[list].loads += 1;
    }

    /// How the box of a fill lies to its stand.
    pub fn filled(&mut self, list: usize, lies: Lies) {
        let kind = match lies {
            Lies::Inside => 0,
            Lies::Across => 1,
            Lies::Beside(_) => 2,
        };
        count(&mut self.lists[list].boxes, BOXES[kind]);
    }

    pub fn routed(&mut self, route: &'static str) {
        count(&mut self.routes, route);
    }

    /// A stand whose second differs in a cell.
    pub fn changed(&mut self, v: Volume, change: Change) {
        self.stands += 1;
        let size = match model::sections(v) {
            1 => 0,
            2..=8 => 1,
            _ => 2,
        };
        count(&mut self.sizes, SIZES[size]);
        let kind = match (change.from, change.to) {
            (0, _) => 0,
            (_, 0) => 1,
            _ => 2,
        };
        count(&mut self.changes, CHANGES[kind]);
        self.placed(v, change);
        for (finish, name) in [0, 1, 65_535].into_iter().zip(FINISHES) {
            if [change.from, change.to].contains(&finish) {
                count(&mut self.finishes, name);
            }
        }
    }

    /// Where the changed cell lies.
    fn placed(&mut self, v: Volume, change: Change) {
        let c = change.cell;
        let (at, o) = ([c.x, c.y, c.z], [v.origin.x, v.origin.y, v.origin.z]);
        let size = [v.size.x, v.size.y, v.size.z];
        let d = [0, 1, 2].map(|a| i64::from(at[a]) - i64::from(o[a]));
        let last = size.map(|n| i64::from(n) - 1);
        let beside =
            (0..3).any(|a| d[a] % 16 == 15 && d[a] < last[a] || d[a] % 16 == 0 && d[a] > 0);
        let first = section_of(v, c) == 0;
        let holds = [first, !first, d == [0; 3], d == last, beside];
        for (_, name) in holds.iter().zip(PLACES).filter(|(holds, _)| **holds) {
            count(&mut self.places, name);
        }
    }

    pub fn add(&mut self, other: &Self) {
        self.stands += other.stands;
        for (mine, theirs) in self.lists.iter_mut().zip(&other.lists) {
            mine.calls += theirs.calls;
            mine.loads += theirs.loads;
            merge(&mut mine.refused, &theirs.refused);
            merge(&mut mine.boxes, &theirs.boxes);
        }
        merge(&mut self.sizes, &other.sizes);
        merge(&mut self.routes, &other.routes);
        merge(&mut self.changes, &other.changes);
        merge(&mut self.places, &other.places);
        merge(&mut self.finishes, &other.finishes);
        for (mine, theirs) in self.kinds.iter_mut().zip(other.kinds) {
            *mine += theirs;
        }
    }

    pub fn comparisons(&self) -> u64 {
        self.kinds.iter().sum()
    }

    /// What the random stands did.
    pub fn print(&self) {
        println!(
            "{} stands, each beside one that differs in a cell",
            self.stands
        );
        println!("  by sections: {}", listed(&self.sizes));
        for (name, list) in LISTS.iter().zip(&self.lists) {
            let (calls, loads) = (list.calls, list.loads);
            println!("  {name} lists: {calls} calls, {loads} forms loaded");
            println!("    refused by number: {}", listed(&list.refused));
            println!("    boxes filled: {}", listed(&list.boxes));
        }
        println!("  ways to the second stand: {}", listed(&self.routes));
        println!("  changes: {}", listed(&self.changes));
        println!("  changed cells: {}", listed(&self.places));
        println!("  changes from or to finish: {}", listed(&self.finishes));
        self.print_kinds();
    }

    /// Comparisons by kind.
    fn print_kinds(&self) {
        println!("  {} comparisons:", self.comparisons());
        for (name, n) in NAMES.iter().zip(self.kinds).filter(|(_, n)| *n > 0) {
            println!("    {n:>13} {name}");
        }
    }

    /// Whether all has occurred that a run must show; prints what has not.
    pub fn is_whole(&self) -> bool {
        let mut missing = lacking("way", ROUTES.map(|r| r.0), &self.routes);
        missing.extend(lacking("change", CHANGES, &self.changes));
        missing.extend(lacking("sections", SIZES, &self.sizes));
        missing.extend(lacking("changed cell", PLACES, &self.places));
        missing.extend(lacking("finish", FINISHES, &self.finishes));
        for (name, list) in LISTS.iter().zip(&self.lists) {
            let of = |what: &str| format!("{name} list: {what}");
            missing.extend(lacking(&of("refused by"), REFUSALS, &list.refused));
            missing.extend(lacking(&of("box"), BOXES, &list.boxes));
            missing.extend((list.loads == 0).then(|| of("load")));
        }
        for what in &missing {
            println!("  never: {what}");
        }
        missing.is_empty()
    }

    /// The last line, the comparisons of worked pairs added.
    pub fn end(&self, worked: u64, differences: u64) {
        let (stands, comparisons) = (self.stands, self.comparisons() + worked);
        println!("{stands} stands, {comparisons} comparisons, {differences} differences");
    }
}

/// Those of the names that were never counted.
fn lacking<K: Ord + ToString, const N: usize>(
    what: &str,
    names: [K; N],
    had: &Counts<K>,
) -> Vec<String> {
    let never = names.into_iter().filter(|name| !had.contains_key(name));
    never.map(|n| format!("{what} {}", n.to_string())).collect()
}
