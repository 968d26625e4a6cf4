//! The stand against the Rust: the same lists of calls on both sides, and a benchmark.

mod bench;
mod boxes;
mod calls;
mod compare;
mod counts;
mod damage;
mod differences;
mod exhaustive;
mod fault;
mod ffi;
mod forms;
mod guard;
mod many;
mod model;
mod one_off;
mod openings;
mod ours;
mod pair;
mod panels;
mod quote;
mod record;
mod report;
mod rng;
mod run;
mod selftest;
mod sheet;
mod shrink;
mod theirs;
mod tiers;
mod trial;

use boxes::Boxes;
use report::Report;
use std::process::ExitCode;

const USAGE: &str = "\
differential              the whole run
differential --calls N    the tiers cut to N calls, price sheets and damaged calls in the same share
differential --seed S     lists made from another seed
differential --checked    a shorter run that lists the Rust's panics; build it with --profile checked
differential --sheet      the price sheet's part alone
differential --scripts N  the program trial with N random scripts (300,000 unless said)
differential --lines N    the program quote with N random texts (100,000 unless said)
differential --forms N    stands kept in a file: N random stands (100,000 unless said)
differential --one-off N  one cell off: digests of N random stands (10,000 unless said)
differential --self-test  faults put into our side must be found
differential --bench      times of both sides
differential --record F   calls with the Rust's answers, written behind the worked cases in F";

const DAMAGED: u64 = 1_000_000;
const CHECKED: u64 = 200_000;

/// A panel whose faces pass i32: with overflow checks the Rust panics.
const PAST_I32: ffi::Extent = ffi::Extent {
    x: 65_536,
    y: 65_536,
    z: 1,
};

struct Args {
    /// Calls of the tiers, if not all.
    calls: Option<u64>,
    /// Scripts, texts or stands.
    inputs: Option<u64>,
    seed: u64,
    mode: String,
    file: String,
}

fn args() -> Option<Args> {
    let mut parsed = Args {
        calls: None,
        inputs: None,
        seed: 1,
        mode: String::new(),
        file: String::new(),
    };
    let mut rest = std::env::args().skip(1).peekable();
    while let Some(arg) = rest.next() {
        match arg.as_str() {
            "--calls" => parsed.calls = Some(rest.next()?.parse().ok()?),
            "--seed" => parsed.seed = rest.next()?.parse().ok()?,
            "--scripts" | "--lines" | "--forms" | "--one-off" => {
                if let Some(next) = rest.next_if(|a| !a.starts_with("--")) {
                    parsed.inputs = Some(next.parse().ok()?);
                }
                parsed.mode = arg;
            }
            "--bench" | "--checked" | "--self-test" | "--sheet" => parsed.mode = arg,
            "--record" => {
                parsed.file = rest.next()?;
                parsed.mode = arg;
            }
            _ => return None,
        }
    }
    Some(parsed)
}

fn main() -> ExitCode {
    let Some(args) = args() else {
        println!("{USAGE}");
        return ExitCode::FAILURE;
    };
    guard::install();
    let passed = match args.mode.as_str() {
        "--bench" => {
            bench::run();
            true
        }
        "--self-test" => self_test(args.seed),
        "--scripts" => built(false) && trial::run(args.inputs.unwrap_or(trial::SCRIPTS), args.seed),
        "--lines" => built(false) && quote::run(args.inputs.unwrap_or(quote::TEXTS), args.seed),
        "--forms" => forms::run(args.inputs.unwrap_or(forms::STANDS), args.seed),
        "--one-off" => one_off::run(args.inputs.unwrap_or(one_off::STANDS), args.seed),
        "--sheet" => sheet_alone(&args),
        "--record" => record::run(&args.file, args.seed),
        mode => compare_all(&args, mode == "--checked"),
    };
    if passed {
        ExitCode::SUCCESS
    } else {
        ExitCode::FAILURE
    }
}

fn self_test(seed: u64) -> bool {
    let parts = [
        selftest::run,
        forms::self_test,
        one_off::self_test,
        sheet::self_test,
        trial::self_test,
        quote::self_test,
    ];
    let tested = parts.map(|part| part(seed));
    let faults: usize = tested.iter().map(|t| t.faults).sum();
    let found: usize = tested.iter().map(|t| t.found).sum();
    println!("{faults} faults, {found} found and shrunk");
    found == faults
}

/// Whether the Rust was built with overflow checks as wanted.
fn built(checks: bool) -> bool {
    let fits = guard::guarded(|| theirs::merged(PAST_I32)).is_err() == checks;
    if !fits {
        println!("build with --release, or with --profile checked for --checked");
    }
    fits
}

fn compare_all(args: &Args, catch: bool) -> bool {
    if !built(catch) {
        return false;
    }
    println!("seed {}", args.seed);
    let mut report = Report::new(args.seed);
    if !catch {
        report.part("every short list on tiny stands", exhaustive::run);
    }
    let all = if catch { CHECKED } else { tiers::CALLS };
    let asked = args.calls.unwrap_or(all);
    let mut boxes = Boxes::default();
    for tier in tiers::cut(asked) {
        boxes.add(&report.part(tier.name, || tiers::run_tier(&tier, args.seed, catch)));
    }
    report.must_show("the tiers", &boxes.missing());
    report.part("opening at its limits", || openings::run(catch));
    if catch {
        report.panics();
    } else {
        sheets(args, &mut report);
        damaged(tiers::share(DAMAGED, asked), args.seed, &mut report);
    }
    report.end()
}

fn sheets(args: &Args, report: &mut Report) {
    let asked = args.calls.unwrap_or(tiers::CALLS);
    let calls = tiers::share(sheet::CALLS, asked);
    report.part("document 01's example of the price sheet", sheet::example);
    report.part("price sheets of up to 27 sections", || {
        sheet::run(calls, args.seed)
    });
    let stands = tiers::share(sheet::LISTED, asked);
    sheet::listed(stands, args.seed, report);
}

fn sheet_alone(args: &Args) -> bool {
    println!("seed {}", args.seed);
    let mut report = Report::new(args.seed);
    sheets(args, &mut report);
    report.end()
}

/// Damaged calls count apart: they are outside the domain of comparison.
fn damaged(calls: u64, seed: u64, report: &mut Report) {
    let summary = damage::run(calls, seed);
    let c = &summary.counts;
    println!("damaged calls, held to the model, counted apart");
    println!(
        "  {} calls on {} stands, {} comparisons",
        c.calls,
        c.lists,
        c.comparisons()
    );
    summary.tally.print();
    if let Some((stand, difference)) = summary.found {
        report.differs(&format!("damaged calls on stand {stand}"), &difference);
    }
}
