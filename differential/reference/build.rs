//! Lays out the Rust below target/: mesh.rs by its path, volume.rs with accessors appended for the
//! lists that it keeps to itself, and the types of lib.rs that need nothing of crates/fixed.

use std::env;
use std::fs;
use std::path::{Path, PathBuf};

/// What an item of lib.rs that is left out names.
const LEFT_OUT: [&str; 5] = ["Fixed", "Vec3", "renew_fixed", "pick", "sweep"];

const ACCESSORS: &str = "
impl Volume {
    #[allow(clippy::type_complexity)]
    pub fn stored(&self) -> (&[Voxel], &[u64], &[u32], &[u32], &[u64]) {
        (&self.cells, &self.hashes, &self.versions, &self.log, &self.last_changed)
    }
}
";

fn main() {
    println!("cargo:rerun-if-env-changed=RENEW_SRC");
    let src = source();
    let out = PathBuf::from(env::var_os("OUT_DIR").expect("OUT_DIR"));
    let volume = out.join("volume.rs");
    write(&volume, &(read(&src.join("volume.rs")) + ACCESSORS));
    let mut text = String::new();
    text += &module("mesh", &src.join("mesh.rs"));
    text += &module("volume", &volume);
    text += &types(&read(&src.join("lib.rs")));
    read(&src.join("mesh.rs"));
    write(&out.join("reference.rs"), &text);
}

/// The folder of volume.rs and mesh.rs.
fn source() -> PathBuf {
    let root = env::var_os("RENEW_SRC")
        .unwrap_or_else(|| panic!("set RENEW_SRC to a checkout of renew-engine/renew"));
    let src = PathBuf::from(root).join("crates/volume/src");
    src.canonicalize()
        .unwrap_or_else(|_| panic!("no Rust source at {}: see RENEW_SRC", src.display()))
}

fn read(path: &Path) -> String {
    println!("cargo:rerun-if-changed={}", path.display());
    fs::read_to_string(path).unwrap_or_else(|e| panic!("{}: {e}", path.display()))
}

fn write(path: &Path, text: &str) {
    fs::write(path, text).unwrap_or_else(|e| panic!("{}: {e}", path.display()));
}

fn module(name: &str, path: &Path) -> String {
    format!("#[path = {:?}]\nmod {name};\n", path.display().to_string())
}

/// The items of lib.rs that are kept: types and what they do, and the names of mesh.rs and volume.rs.
fn types(lib: &str) -> String {
    let body = lib
        .lines()
        .filter(|l| !l.starts_with("//!") && !l.starts_with("#!"))
        .collect::<Vec<_>>();
    let mut kept = String::new();
    for item in split(&body, "") {
        let first = item.iter().find(|l| is_code(l)).copied().unwrap_or("");
        if first.starts_with("mod ") {
            continue;
        }
        if first.starts_with("impl ") {
            kept += &members(&item);
        } else if !left_out(&item) {
            kept += &join(&item);
        }
    }
    kept
}

/// An `impl` without the members that are left out.
fn members(item: &[&str]) -> String {
    let open = item
        .iter()
        .position(|l| l.ends_with('{'))
        .expect("an impl opens");
    let inner = &item[open + 1..item.len() - 1];
    let mut text = join(&item[..=open]);
    for member in split(inner, "    ") {
        if !left_out(&member) {
            text += &join(&member);
        }
    }
    text + "}\n"
}

/// Items at one indentation: each ends with its brace, or with a semicolon on its only line.
fn split<'a>(lines: &[&'a str], indent: &str) -> Vec<Vec<&'a str>> {
    let mut items = Vec::new();
    let mut item = Vec::new();
    for line in lines {
        item.push(*line);
        let level = line
            .strip_prefix(indent)
            .filter(|l| is_code(l) && !l.starts_with(' '));
        if level.is_some_and(|l| l.starts_with('}') || l.ends_with(';') || l.ends_with('}')) {
            items.push(std::mem::take(&mut item));
        }
    }
    items
}

fn is_code(line: &str) -> bool {
    let line = line.trim_start();
    !line.is_empty() && !line.starts_with("//") && !line.starts_with("#[")
}

fn left_out(item: &[&str]) -> bool {
    item.iter()
        .filter(|l| is_code(l))
        .any(|l| LEFT_OUT.iter().any(|name| l.contains(name)))
}

fn join(lines: &[&str]) -> String {
    lines.iter().map(|l| format!("{l}\n")).collect()
}
