//! Calls with the Rust's answers, written as cases: docs/CASES.md has their form.

mod answer;
mod page;
mod sheets;
mod stage;
mod stands;

use stage::Stage;
use std::fs;

/// The line at which the recorded calls begin. What stands before it in the file is kept.
const HEAD: &str = "# ---- recorded with the Rust";

/// Writes the recorded calls behind what else the file has, and prints the seed and what was recorded.
pub fn run(path: &str, seed: u64) -> bool {
    println!("seed {seed}");
    let mut stage = Stage::new();
    stands::record(&mut stage, seed);
    sheets::record(&mut stage, seed);
    let page = stage.page;
    for ((verb, outcome), n) in &page.counts {
        println!("  {verb}, {outcome}: {n}");
    }
    let fills = page.answers_of("fill") + page.left_out;
    println!(
        "  fills beside the stand, left out: {} of {fills}",
        page.left_out
    );
    let head = format!("{HEAD}, seed {seed}: differential/README.md, \"Recorded calls\"\n");
    let before = fs::read_to_string(path).unwrap_or_default();
    let kept = before.split(HEAD).next().unwrap_or_default();
    let text = [kept, &head, &page.text].concat();
    println!(
        "{} calls, {} answers, {} bytes",
        page.calls,
        page.answers,
        head.len() + page.text.len()
    );
    fs::write(path, text)
        .inspect_err(|e| println!("{path}: {e}"))
        .is_ok()
}
