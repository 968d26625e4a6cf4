//! Both sides side by side: one stand on each, the same calls.

use crate::calls::Call;
use crate::counts::{Counts, Kind};
use crate::fault::Fault;
use crate::ffi::{Cell, Extent, Number, Volume};
use crate::guard::guarded;
use crate::model;
use crate::ours::{self, Storage};
use crate::sheet::Sheet;
use crate::theirs::{self, Theirs};
use std::fmt::Debug;

/// Where the sides part.
#[derive(Clone, Debug)]
pub struct Difference(pub String);

pub type Same = Result<(), Difference>;

/// Whom our side is held to.
pub const RUST: &str = "Rust";
pub const MODEL: &str = "model";

/// The first entry where our list parts from the one that it is held to.
pub fn apart<T: PartialEq + Debug>(name: &str, ours: &[T], whose: &str, due: &[T]) -> Difference {
    let at = (0..ours.len().max(due.len())).find(|i| ours.get(*i) != due.get(*i));
    let at = at.unwrap_or(0);
    let show = |l: &[T]| format!("{:?} of {}", l.get(at), l.len());
    let (ours, due) = (show(ours), show(due));
    Difference(format!("{name}, entry {at}: ours {ours}, {whose} {due}"))
}

/// Two answers are equal.
pub fn agree<T: PartialEq + Debug>(what: &str, ours: T, whose: &str, due: T) -> Same {
    if ours == due {
        return Ok(());
    }
    Err(Difference(format!(
        "{what}: ours {ours:?}, {whose} {due:?}"
    )))
}

/// Two lists are equal, entry by entry.
pub fn equal<T: PartialEq + Debug>(name: &str, ours: &[T], whose: &str, due: &[T]) -> Same {
    if ours == due {
        return Ok(());
    }
    Err(apart(name, ours, whose, due))
}

/// All five lists are those that are due, entry by entry.
pub fn equal_lists(ours: &Storage, due: &Storage) -> Same {
    equal("cells", &ours.cells, MODEL, &due.cells)?;
    equal("hashes", &ours.hashes, MODEL, &due.hashes)?;
    equal("versions", &ours.versions, MODEL, &due.versions)?;
    equal("log", &ours.log, MODEL, &due.log)?;
    equal("last changes", &ours.last, MODEL, &due.last)
}

/// A panic of the Rust: the function called, and where it panicked.
#[derive(Clone, PartialEq, Eq, PartialOrd, Ord, Debug)]
pub struct Panic {
    pub function: &'static str,
    pub place: String,
}

pub struct Pair {
    pub volume: Volume,
    pub storage: Storage,
    pub theirs: Theirs,
    pub counts: Counts,
    /// The Rust's panics; None where a panic is a difference.
    pub panics: Option<Vec<Panic>>,
    /// A fault of our side, once its trigger has come: a set to 3 that changes.
    pub fault: Option<Fault>,
    pub tripped: bool,
    pub mask: Vec<u16>,
    pub list: Vec<i32>,
    pub turn: usize,
    pub sheet: Sheet,
}

impl Pair {
    /// A stand of one cell on both sides.
    pub fn new(catch: bool) -> Self {
        let size = Extent { x: 1, y: 1, z: 1 };
        let mut storage = Storage::dirty(1);
        let volume = ours::open(Cell::default(), size, &mut storage).volume;
        Self {
            volume,
            storage,
            theirs: Theirs::open(Cell::default(), size).expect("one cell opens"),
            counts: Counts::default(),
            panics: catch.then(Vec::new),
            fault: None,
            tripped: false,
            mask: Vec::new(),
            list: Vec::new(),
            turn: 0,
            sheet: Sheet::default(),
        }
    }

    /// What the Rust answers; None where it panicked and panics are caught.
    pub fn rust<T>(
        &mut self,
        function: &'static str,
        f: impl FnOnce(&mut Theirs) -> T,
    ) -> Result<Option<T>, Difference> {
        let theirs = &mut self.theirs;
        match (guarded(|| f(theirs)), &mut self.panics) {
            (Ok(answer), _) => Ok(Some(answer)),
            (Err(place), Some(panics)) => {
                panics.push(Panic { function, place });
                Ok(None)
            }
            (Err(place), None) => Err(Difference(format!("{function}: the Rust panics, {place}"))),
        }
    }

    pub fn same<T: PartialEq + Debug>(&mut self, kind: Kind, what: &str, ours: T, rust: T) -> Same {
        self.counts.compared(kind);
        agree(what, ours, RUST, rust)
    }

    pub fn same_list<T: PartialEq + Debug>(
        &mut self,
        kind: Kind,
        what: &str,
        ours: &[T],
        rust: &[T],
    ) -> Same {
        self.counts.compared(kind);
        equal(what, ours, RUST, rust)
    }

    /// What our side must keep to, of which the Rust knows nothing.
    pub fn holds(&mut self, what: &str, held: bool) -> Same {
        self.counts.compared(Kind::Kept);
        if held {
            return Ok(());
        }
        Err(Difference(format!("{what}: not so")))
    }

    /// A number that the Rust gives, or the refusal that document 01 wants where it gives none.
    pub fn answer(&mut self, what: &str, ours: Number, rust: Option<u64>, code: u32) -> Same {
        let wanted = match rust {
            Some(value) => Number { code: 0, value },
            None => Number { code, value: 0 },
        };
        self.same(Kind::Answer, what, ours, wanted)
    }

    pub fn faulty(&self, fault: Fault) -> bool {
        self.tripped && self.fault == Some(fault)
    }

    pub fn call(&mut self, call: &Call) -> Same {
        self.counts.calls += 1;
        match *call {
            Call::Open(origin, size) => self.open(origin, size),
            Call::Set(cell, finish) => self.set(cell, finish, false),
            Call::SetLent(cell, finish) => self.set(cell, finish, true),
            Call::Fill(from, to, finish) => self.fill(from, to, finish),
            Call::Look(cell) => self.look(cell),
            Call::Section(chunk) => self.section(chunk),
            Call::Since(mark) => self.since(mark),
            Call::Merged(extent) => self.merged(extent),
            Call::Sheet(ask) => self.ask(ask),
        }
    }

    fn open(&mut self, origin: Cell, size: Extent) -> Same {
        let Some(rust) = self.rust("new", |_| Theirs::open(origin, size))? else {
            return Ok(());
        };
        let code = model::open_code(origin, size);
        let mut header = ours::header(origin, size);
        header.code ^= u32::from(self.faulty(Fault::Header));
        let wanted = model::header(origin, size);
        self.same(Kind::Answer, "header", header, wanted)?;
        let mut storage = Storage::dirty(ours::sections_of(size));
        let opened = ours::open(origin, size, &mut storage);
        self.same(Kind::Answer, "open", opened.code, code)?;
        self.same(Kind::Answer, "open", opened.code == 0, rust.is_some())?;
        match rust {
            Some(theirs) => {
                self.sheet.edited();
                self.sheet.close();
                self.theirs = theirs;
                self.volume = opened.volume;
                self.storage = storage;
            }
            None => {
                self.counts.refused += 1;
                let dirty = Storage::dirty(ours::sections_of(size));
                self.same(
                    Kind::Header,
                    "refused open",
                    opened.volume,
                    Volume::default(),
                )?;
                self.holds("refused open keeps the lists", storage == dirty)?;
            }
        }
        Ok(())
    }

    fn set(&mut self, cell: Cell, finish: u16, lent: bool) -> Same {
        let Some(rust) = self.rust("set", |t| t.set(cell, finish))? else {
            return Ok(());
        };
        let inside = model::inside(self.volume, cell);
        let (code, mut changed) = self.set_ours(cell, finish, lent);
        self.tally(rust, !inside);
        if let Some(fault) = self.fault.filter(|_| rust && finish == 3) {
            self.tripped = true;
            fault.spoil(&mut self.volume, &mut self.storage);
            changed ^= u64::from(self.faulty(Fault::Answer));
        }
        let wanted = if inside { 0 } else { 5 };
        let rust = (wanted, u64::from(rust));
        self.same(Kind::Answer, "set", (code, changed), rust)
    }

    /// Our set, the header by value or lent: its code, and the cells changed.
    fn set_ours(&mut self, cell: Cell, finish: u16, lent: bool) -> (u32, u64) {
        if lent {
            let got = ours::set_lent(&mut self.volume, &mut self.storage, cell, finish);
            return (got.code, got.value);
        }
        let done = ours::set(self.volume, &mut self.storage, cell, finish);
        self.volume = done.volume;
        (done.code, done.changed)
    }

    fn fill(&mut self, from: Cell, to: Cell, finish: u16) -> Same {
        let lies = model::lies(self.theirs.header(), from, to);
        self.counts.boxes.count(lies);
        if lies.misses() {
            return self.fill_beside(from, to, finish);
        }
        let Some(rust) = self.rust("fill", |t| t.fill(from, to, finish))? else {
            return Ok(());
        };
        let done = ours::fill(self.volume, &mut self.storage, from, to, finish);
        self.volume = done.volume;
        self.tally(rust > 0, false);
        self.same(Kind::Answer, "fill", (done.code, done.changed), (0, rust))
    }

    /// A box that misses the stand: the Rust, which fills border cells, is not asked. By document 02, 2.1 no cell
    /// changes, and header and lists stay as they were.
    fn fill_beside(&mut self, from: Cell, to: Cell, finish: u16) -> Same {
        let (volume, storage) = (self.volume, self.storage.clone());
        let code = model::fill_code(volume, &storage, from, to);
        let [a, b] = [from, to].map(|corner| self.reached(corner));
        let done = ours::fill(volume, &mut self.storage, a, b, finish);
        self.volume = done.volume;
        let answer = (done.code, done.changed);
        agree("fill beside the stand", answer, MODEL, (code, 0))?;
        agree("header after it", done.volume, MODEL, volume)?;
        equal_lists(&self.storage, &storage)
    }

    /// The corner that our side takes; by its fault, the nearest cell of the stand.
    fn reached(&self, corner: Cell) -> Cell {
        if self.faulty(Fault::Rim) {
            return ours::clamp(self.volume, corner).cell;
        }
        corner
    }

    pub fn tally(&mut self, changed: bool, refused: bool) {
        if changed {
            self.sheet.edited();
        }
        self.counts.changing += u64::from(changed);
        self.counts.refused += u64::from(refused);
    }

    fn look(&mut self, cell: Cell) -> Same {
        let v = self.volume;
        let inside = self.theirs.0.contains(theirs::cell(cell));
        self.tally(false, !inside);
        let yes = |b: bool| Some(u64::from(b));
        self.answer("contains", ours::contains(v, cell), yes(inside), 0)?;
        let solid = self.theirs.0.is_solid(theirs::cell(cell));
        let got = ours::is_solid(v, &self.storage.cells, cell);
        self.answer("is_solid", got, yes(solid), 0)?;
        let got = ours::get(v, &self.storage.cells, cell);
        self.answer("get", got, self.theirs.get(cell), 5)?;
        self.answer(
            "chunk_of",
            ours::chunk_of(v, cell),
            self.theirs.chunk_of(cell),
            5,
        )?;
        let Some(rust) = self.rust("clamp", |t| t.clamp(cell))? else {
            return Ok(());
        };
        let got = ours::clamp(v, cell);
        self.same(Kind::Answer, "clamp", (got.code, got.cell), (0, rust))
    }

    fn section(&mut self, chunk: usize) -> Same {
        let v = self.volume;
        let there = chunk < self.theirs.0.chunk_count();
        self.tally(false, !there);
        let got = ours::chunk_hash(v, &self.storage.hashes, chunk);
        self.answer("chunk_hash", got, self.theirs.0.chunk_hash(chunk), 7)?;
        let got = ours::chunk_version(v, &self.storage.versions, chunk);
        self.answer("chunk_version", got, self.theirs.chunk_version(chunk), 7)?;
        let got = ours::chunk_origin(v, chunk);
        let wanted = match self.theirs.chunk_origin(chunk) {
            Some(cell) => (0, cell),
            None => (7, Cell::default()),
        };
        self.same(Kind::Answer, "chunk_origin", (got.code, got.cell), wanted)?;
        self.slots(chunk)?;
        if there {
            return self.panels(Some(chunk), 1);
        }
        self.no_section(chunk)
    }

    /// Walks the changes since a mark on both sides.
    pub fn since(&mut self, mark: u64) -> Same {
        let v = self.volume;
        let rust: Option<Vec<u64>> = self
            .theirs
            .0
            .changed_since(mark)
            .map(|walk| walk.map(|chunk| chunk as u64).collect());
        let (log, last) = (&self.storage.log, &self.storage.last);
        let start = ours::changed_since(v, log, last, mark);
        let mut given = Vec::new();
        let mut step = ours::changed_step(v, log, last, mark);
        let code = step.code;
        while step.given == 1 && given.len() <= log.len() {
            given.push(step.chunk);
            step = ours::changed_step(v, log, last, step.next);
        }
        if self.faulty(Fault::Feed) {
            given.pop();
        }
        let refusal = if mark > v.generation { 8 } else { 9 };
        self.answer("changed_since", start, rust.as_ref().map(|_| mark), refusal)?;
        self.same(Kind::Answer, "changed_step", code, start.code)?;
        let walk = rust.unwrap_or_default();
        self.same_list(Kind::Feed, "walk over changes", &given, &walk)
    }

    fn merged(&mut self, extent: Extent) -> Same {
        let Some(rust) = self.rust("merged", |_| theirs::merged(extent))? else {
            return Ok(());
        };
        let wanted = model::merged(extent);
        let got = ours::merged(extent);
        self.tally(false, wanted.is_none());
        if let Some(value) = wanted {
            self.same(Kind::Answer, "merged", value, rust as u64)?;
        }
        self.answer("merged", got, wanted, 13)
    }
}
