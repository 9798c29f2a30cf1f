//! Links the static library of the crate `boards`.

use std::env;
use std::path::PathBuf;

fn main() {
    let top = PathBuf::from(env::var_os("CARGO_MANIFEST_DIR").expect("cargo sets it")).join("..");
    let folder = top.join("crates/boards/out");
    let library = folder.join("libboards.a");
    println!("cargo::rerun-if-changed={}", library.display());
    if !library.exists() {
        println!("cargo::error=crates/boards/out/libboards.a is missing; `rt lib` in crates/boards builds it");
    }
    println!("cargo::rustc-link-search=native={}", folder.display());
    println!("cargo::rustc-link-lib=static=boards");
}
