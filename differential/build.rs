//! Links the static library of the stand: target/staticlib/libexports.a, or the one below STAND_LIB.

use std::env;
use std::path::PathBuf;

fn main() {
    println!("cargo:rerun-if-env-changed=STAND_LIB");
    let here = PathBuf::from(env::var_os("CARGO_MANIFEST_DIR").expect("CARGO_MANIFEST_DIR"));
    let folder = match env::var_os("STAND_LIB") {
        Some(path) => PathBuf::from(path),
        None => here.join("../target/staticlib"),
    };
    let archive = folder.join("libexports.a");
    assert!(
        archive.is_file(),
        "no {}: run `example/archive` at the repository's root, or set STAND_LIB to its folder",
        archive.display()
    );
    println!("cargo:rerun-if-changed={}", archive.display());
    println!("cargo:rustc-link-search=native={}", folder.display());
    println!("cargo:rustc-link-lib=static=exports");
}
