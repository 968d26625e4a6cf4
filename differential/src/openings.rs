//! Opening alone, at its limits.

use crate::calls::Call;
use crate::ffi::{Cell, Extent};
use crate::many::Summary;
use crate::run::{self, ALL, NEVER, Options};

const LAST: i32 = i32::MAX;
/// The most sections along one axis, in cells.
const MOST: i32 = 1_048_576;

const SIZES: [[i32; 3]; 20] = [
    [MOST, 1, 1],
    [1, MOST, 1],
    [1, 1, MOST],
    [1_024, 1_024, 256],
    [1_009, 256, 1_024],
    [MOST + 1, 1, 1],
    [1, MOST + 1, 1],
    [1, 1, MOST + 1],
    [1_025, 1_024, 256],
    [1_024, 1_024, 257],
    [LAST, 1, 1],
    [1, LAST, 1],
    [1, 1, LAST],
    [LAST, LAST, 1],
    [LAST, 1, LAST],
    [1, LAST, LAST],
    [LAST, LAST, LAST],
    [LAST - 14, 1, 1],
    [0, -1, i32::MIN],
    [16, 17, 1],
];

fn open(origin: [i32; 3], size: [i32; 3]) -> Call {
    let [x, y, z] = origin;
    let origin = Cell { x, y, z };
    let [x, y, z] = size;
    Call::Open(origin, Extent { x, y, z })
}

fn openings() -> Vec<Call> {
    let mut all = Vec::new();
    for size in SIZES {
        all.push(open([0; 3], size));
        all.push(open([i32::MIN; 3], size));
    }
    for axis in 0..3 {
        for n in [1, 2, 15, 16, 17, 33, MOST] {
            let mut size = [1; 3];
            size[axis] = n;
            // The last cell at 2^31 - 2, 2^31 - 1 and 2^31.
            for past in [-1, 0, 1] {
                let mut origin = [0; 3];
                origin[axis] =
                    (i64::from(LAST) - i64::from(n) + 1 + past).min(i64::from(LAST)) as i32;
                all.push(open(origin, size));
            }
        }
    }
    // Both refusals at once: 1 is the lower.
    all.push(open([LAST; 3], [MOST + 1, 1, 1]));
    all.push(open([LAST; 3], [LAST; 3]));
    all
}

pub fn run(catch: bool) -> Summary {
    let options = Options {
        mesh_every: NEVER,
        catch,
        ..ALL
    };
    let mut summary = Summary::default();
    for (number, call) in openings().into_iter().enumerate() {
        let calls = vec![call];
        let outcome = run::run(&calls, options);
        summary.add(number as u64, calls, outcome, options);
    }
    summary
}
