//! One list of calls, run on both sides.

use crate::calls::Call;
use crate::counts::Counts;
use crate::fault::Fault;
use crate::pair::{Difference, Pair, Panic, Same};

/// For stands too large to mesh.
pub const NEVER: usize = usize::MAX;

#[derive(Clone, Copy)]
pub struct Options {
    /// Panels are compared after each call whose number is a multiple of this.
    pub mesh_every: usize,
    /// Whether the stand is compared after each call, or after the last alone.
    pub each: bool,
    /// Whether the Rust's panics are caught and listed.
    pub catch: bool,
    pub fault: Option<Fault>,
}

pub const ALL: Options = Options {
    mesh_every: 1,
    each: true,
    catch: false,
    fault: None,
};

impl Options {
    /// Everything compared after each call, for the smallest list.
    pub fn closely(self) -> Self {
        let mesh_every = if self.mesh_every == NEVER { NEVER } else { 1 };
        Self {
            mesh_every,
            each: true,
            ..self
        }
    }
}

pub struct Outcome {
    pub counts: Counts,
    pub panics: Vec<Panic>,
    pub difference: Option<Difference>,
}

pub fn run(calls: &[Call], options: Options) -> Outcome {
    let mut pair = Pair::new(options.catch);
    pair.fault = options.fault;
    pair.counts.lists = 1;
    let mut difference = None;
    for (i, call) in calls.iter().enumerate() {
        let last = i + 1 == calls.len();
        let mesh = (i + 1) % options.mesh_every == 0;
        if let Err(d) = step(&mut pair, call, options.each || last, mesh) {
            difference = Some(d);
            break;
        }
    }
    Outcome {
        counts: pair.counts,
        panics: pair.panics.unwrap_or_default(),
        difference,
    }
}

fn step(pair: &mut Pair, call: &Call, compare: bool, mesh: bool) -> Same {
    pair.call(call)?;
    if compare {
        pair.compare_stand()?;
        if mesh {
            pair.compare_panels()?;
        }
    }
    Ok(())
}
