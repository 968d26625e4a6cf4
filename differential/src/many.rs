//! Many lists of calls, or other work by number, on as many threads as the machine has cores.

use crate::calls::Call;
use crate::counts::Counts;
use crate::differences::Differences;
use crate::pair::{Difference, Panic};
use crate::run::{self, Options, Outcome};
use std::collections::BTreeMap;
use std::sync::Mutex;
use std::sync::atomic::{AtomicBool, AtomicU64, Ordering};
use std::thread;

/// A list that showed a difference.
pub struct Found {
    pub list: u64,
    pub calls: Vec<Call>,
    pub difference: Difference,
    /// How the list was run.
    pub options: Options,
}

#[derive(Default)]
pub struct Summary {
    pub counts: Counts,
    /// The first list, by number, of those that showed a difference.
    pub found: Option<Found>,
    /// Each panic of the Rust: how often it came, and a list that shows it.
    pub panics: BTreeMap<Panic, (u64, Vec<Call>)>,
}

impl Summary {
    pub fn add(&mut self, list: u64, calls: Vec<Call>, outcome: Outcome, options: Options) {
        self.counts.add(&outcome.counts);
        for panic in outcome.panics {
            let entry = self.panics.entry(panic);
            entry.or_insert_with(|| (0, calls.clone())).0 += 1;
        }
        let first = self.found.as_ref().is_none_or(|f| list < f.list);
        if let Some(difference) = outcome.difference.filter(|_| first) {
            self.found = Some(Found {
                list,
                calls,
                difference,
                options,
            });
        }
    }
}

/// Runs the lists numbered below `lists`; stops soon after a difference.
pub fn run_lists(lists: u64, options: Options, make: impl Fn(u64) -> Vec<Call> + Sync) -> Summary {
    let summary = Mutex::new(Summary::default());
    while_same(lists, |list| {
        let calls = make(list);
        let outcome = run::run(&calls, options);
        let same = outcome.difference.is_none();
        let mut all = summary.lock().expect("no thread panicked");
        all.add(list, calls, outcome, options);
        same
    });
    summary.into_inner().expect("no thread panicked")
}

/// What cases did, and those that differed.
pub struct Cases<C, T> {
    pub tally: T,
    pub differences: Differences<(C, Difference)>,
}

/// A case, what it did, and the difference if there is one.
pub type Ran<C, T> = (C, T, Option<Difference>);

/// Runs the cases numbered below `count`; stops soon after a difference.
pub fn run_cases<C: Send, T: Default + Send>(
    count: u64,
    run: impl Fn(u64) -> Ran<C, T> + Sync,
    add: fn(&mut T, &T),
) -> Cases<C, T> {
    let all = Mutex::new((T::default(), Differences::default()));
    while_same(count, |number| {
        let (case, tally, difference) = run(number);
        let same = difference.is_none();
        let mut all = all.lock().expect("no thread panicked");
        add(&mut all.0, &tally);
        if let Some(difference) = difference {
            all.1.add(number, (case, difference));
        }
        same
    });
    let (tally, differences) = all.into_inner().expect("no thread panicked");
    Cases { tally, differences }
}

/// Does the work of each number below `count`; stops soon after one that answers false.
pub fn while_same(count: u64, work: impl Fn(u64) -> bool + Sync) {
    let next = AtomicU64::new(0);
    let stop = AtomicBool::new(false);
    let turn = || {
        while !stop.load(Ordering::Relaxed) {
            let number = next.fetch_add(1, Ordering::Relaxed);
            if number >= count {
                return;
            }
            stop.fetch_or(!work(number), Ordering::Relaxed);
        }
    };
    let threads = thread::available_parallelism().map_or(1, usize::from);
    thread::scope(|scope| {
        for _ in 0..threads {
            scope.spawn(turn);
        }
    });
}
