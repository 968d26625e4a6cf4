//! A list that shows something, made as small as it will go.

use crate::calls::Call;
use crate::ffi::{Cell, Extent};
use crate::sheet;
use std::time::{Duration, Instant};

/// How long it goes on.
const LIMIT: Duration = Duration::from_secs(30);

pub fn shrink(calls: &[Call], shows: impl Fn(&[Call]) -> bool) -> Vec<Call> {
    let mut s = Shrinker::new(calls, shows);
    loop {
        let before = s.best.clone();
        s.drop_runs();
        s.move_to_zero();
        s.make_smaller();
        if s.best == before || s.is_late() {
            return s.best;
        }
    }
}

/// As few entries as show it, each as it was.
pub fn fewest<T: Clone + PartialEq>(list: &[T], shows: impl Fn(&[T]) -> bool) -> Vec<T> {
    let mut s = Shrinker::new(list, shows);
    loop {
        let before = s.best.len();
        s.drop_runs();
        if s.best.len() == before || s.is_late() {
            return s.best;
        }
    }
}

struct Shrinker<T, F> {
    best: Vec<T>,
    start: Instant,
    shows: F,
}

impl<T: Clone + PartialEq, F: Fn(&[T]) -> bool> Shrinker<T, F> {
    fn new(list: &[T], shows: F) -> Self {
        Self {
            best: list.to_vec(),
            start: Instant::now(),
            shows,
        }
    }

    fn is_late(&self) -> bool {
        self.start.elapsed() > LIMIT
    }

    fn try_list(&mut self, list: Vec<T>) -> bool {
        if list == self.best || self.is_late() {
            return false;
        }
        let shows = (self.shows)(&list);
        if shows {
            self.best = list;
        }
        shows
    }

    /// Leaves out runs of entries, long ones first.
    fn drop_runs(&mut self) {
        let mut run = self.best.len();
        while run > 0 {
            let mut at = 0;
            while at < self.best.len() {
                let mut list = self.best.clone();
                list.drain(at..(at + run).min(list.len()));
                if !self.try_list(list) {
                    at += run;
                }
            }
            run /= 2;
        }
    }
}

impl<F: Fn(&[Call]) -> bool> Shrinker<Call, F> {
    /// Moves all cells together, so that an opening lies at 0 on an axis.
    fn move_to_zero(&mut self) {
        for at in 0..self.best.len() {
            for axis in 0..3 {
                let Some(Call::Open(origin, _)) = self.best.get(at).copied() else {
                    continue;
                };
                let by = coordinates(origin)[axis];
                let list = self.best.iter().map(|c| moved(*c, axis, by)).collect();
                self.try_list(list);
            }
        }
    }

    fn make_smaller(&mut self) {
        for at in 0..self.best.len() {
            while self.make_one_smaller(at) {}
        }
    }

    fn make_one_smaller(&mut self, at: usize) -> bool {
        let Some(call) = self.best.get(at).copied() else {
            return false;
        };
        smaller(call).into_iter().any(|call| {
            let mut list = self.best.clone();
            list[at] = call;
            self.try_list(list)
        })
    }
}

fn coordinates(c: Cell) -> [i32; 3] {
    [c.x, c.y, c.z]
}

fn cell(c: [i32; 3]) -> Cell {
    let [x, y, z] = c;
    Cell { x, y, z }
}

fn extent(e: [i32; 3]) -> Extent {
    let [x, y, z] = e;
    Extent { x, y, z }
}

fn moved(call: Call, axis: usize, by: i32) -> Call {
    let on = |c: Cell| {
        let mut c = coordinates(c);
        c[axis] = c[axis].saturating_sub(by);
        cell(c)
    };
    match call {
        Call::Open(o, s) => Call::Open(on(o), s),
        Call::Set(c, f) => Call::Set(on(c), f),
        Call::SetLent(c, f) => Call::SetLent(on(c), f),
        Call::Fill(a, b, f) => Call::Fill(on(a), on(b), f),
        Call::Look(c) => Call::Look(on(c)),
        other => other,
    }
}

/// Numbers nearer to `to`, the nearest first; each next one goes half as far.
fn nearer(n: i32, to: i32) -> Vec<i32> {
    let (n, to) = (i64::from(n), i64::from(to));
    let mut way = to - n;
    let mut all = Vec::new();
    while way != 0 {
        all.push((n + way) as i32);
        way /= 2;
    }
    all
}

/// The same three numbers with one of them nearer to `to`.
fn triples(t: [i32; 3], to: i32) -> Vec<[i32; 3]> {
    let mut all = Vec::new();
    for axis in 0..3 {
        for n in nearer(t[axis], to) {
            let mut one = t;
            one[axis] = n;
            all.push(one);
        }
    }
    all
}

fn finishes(f: u16) -> Vec<u16> {
    [1, 2].into_iter().filter(|n| *n < f).collect()
}

fn smaller(call: Call) -> Vec<Call> {
    match call {
        Call::Open(o, s) => smaller_open(o, s),
        Call::Set(c, f) => {
            let cells = triples(coordinates(c), 0).into_iter();
            let finishes = finishes(f).into_iter();
            cells
                .map(|c| Call::Set(cell(c), f))
                .chain(finishes.map(|f| Call::Set(c, f)))
                .collect()
        }
        Call::SetLent(c, f) => [Call::Set(c, f)]
            .into_iter()
            .chain(
                triples(coordinates(c), 0)
                    .into_iter()
                    .map(|c| Call::SetLent(cell(c), f)),
            )
            .chain(finishes(f).into_iter().map(|f| Call::SetLent(c, f)))
            .collect(),
        Call::Fill(a, b, f) => smaller_fill(a, b, f),
        Call::Look(c) => triples(coordinates(c), 0)
            .into_iter()
            .map(|c| Call::Look(cell(c)))
            .collect(),
        Call::Section(n) => (0..n.min(4)).map(Call::Section).collect(),
        Call::Since(m) => [0, m / 2, m.saturating_sub(1)]
            .into_iter()
            .filter(|n| *n < m)
            .map(Call::Since)
            .collect(),
        Call::Merged(e) => triples([e.x, e.y, e.z], 1)
            .into_iter()
            .map(|e| Call::Merged(extent(e)))
            .collect(),
        Call::Sheet(ask) => sheet::smaller(ask).into_iter().map(Call::Sheet).collect(),
    }
}

/// A smaller size, from the same origin or with the same last cell; or an origin nearer to 0.
fn smaller_open(o: Cell, s: Extent) -> Vec<Call> {
    let size = [s.x, s.y, s.z];
    let mut all = Vec::new();
    for t in triples(size, 1) {
        all.push(Call::Open(o, extent(t)));
        let up = [0, 1, 2].map(|a| coordinates(o)[a].saturating_add(size[a].saturating_sub(t[a])));
        all.push(Call::Open(cell(up), extent(t)));
    }
    let origins = triples(coordinates(o), 0).into_iter();
    all.extend(origins.map(|o| Call::Open(cell(o), s)));
    all
}

fn smaller_fill(a: Cell, b: Cell, f: u16) -> Vec<Call> {
    let mut all = vec![Call::Set(a, f), Call::Set(b, f)];
    for axis in 0..3 {
        for n in nearer(coordinates(b)[axis], coordinates(a)[axis]) {
            let mut one = coordinates(b);
            one[axis] = n;
            all.push(Call::Fill(a, cell(one), f));
        }
    }
    let corners = triples(coordinates(a), 0).into_iter();
    all.extend(corners.map(|a| Call::Fill(cell(a), b, f)));
    all.extend(finishes(f).into_iter().map(|f| Call::Fill(a, b, f)));
    all
}
