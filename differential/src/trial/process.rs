//! A program itself: one process for each script or text.

use std::io::{ErrorKind, Result, Write};
use std::path::{Path, PathBuf};
use std::process::{Command, Stdio};

/// What a pipe holds, so that a script is written whole before the program reads it.
const PIPE: usize = 65_536;

/// All that a run of a program shows.
#[derive(PartialEq)]
pub struct Shown {
    pub out: Vec<u8>,
    pub err: Vec<u8>,
    /// The exit status; None where a signal ended it.
    pub code: Option<i32>,
}

impl Shown {
    /// What a program must show: these lines, no word else, exit status 0.
    pub fn due(lines: &str) -> Self {
        Self {
            out: lines.as_bytes().to_vec(),
            err: Vec::new(),
            code: Some(0),
        }
    }

    pub fn print(&self, name: &str) {
        let code = self.code.map_or("a signal".into(), |n| format!("{n}"));
        println!("  {name}, exit status {code}:");
        for bytes in [&self.out, &self.err] {
            for line in String::from_utf8_lossy(bytes).lines() {
                println!("    {line}");
            }
        }
    }
}

/// A program below target/bin at the repository's root, or the file that the variable names.
pub fn program(name: &str, variable: &str) -> Option<PathBuf> {
    let path = match std::env::var_os(variable) {
        Some(path) => PathBuf::from(path),
        None => Path::new(env!("CARGO_MANIFEST_DIR"))
            .join("../target/bin")
            .join(name),
    };
    if path.is_file() {
        return Some(path);
    }
    println!(
        "no {}: run `example/program {name}` at the repository's root, or set {variable} to the program",
        path.display()
    );
    None
}

pub fn run(program: &Path, script: &[u8]) -> Shown {
    let shown = shown(program, script);
    shown.unwrap_or_else(|e| panic!("{}: {e}", program.display()))
}

fn shown(program: &Path, script: &[u8]) -> Result<Shown> {
    assert!(script.len() < PIPE, "a script fits a pipe");
    let mut child = Command::new(program)
        .stdin(Stdio::piped())
        .stdout(Stdio::piped())
        .stderr(Stdio::piped())
        .spawn()?;
    let mut input = child.stdin.take().expect("its input is a pipe");
    match input.write_all(script) {
        // A program that stops at a broken call or line may be gone before the rest is written.
        Err(e) if e.kind() != ErrorKind::BrokenPipe => return Err(e),
        _ => drop(input),
    }
    let output = child.wait_with_output()?;
    Ok(Shown {
        out: output.stdout,
        err: output.stderr,
        code: output.status.code(),
    })
}
