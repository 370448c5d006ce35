//! Links the program with libmasks_c.a, from the directory that MASKS_LIB_DIR names (relative to
//! this crate, if not absolute), else from ../crates/masks_c/out.

use std::env;
use std::path::Path;

fn main() {
    let crate_dir = env::var("CARGO_MANIFEST_DIR").expect("cargo sets CARGO_MANIFEST_DIR");
    let lib_dir = env::var("MASKS_LIB_DIR").unwrap_or_else(|_| "../crates/masks_c/out".into());
    let archive = Path::new(&crate_dir).join(lib_dir).join("libmasks_c.a");
    println!("cargo::rerun-if-env-changed=MASKS_LIB_DIR");
    println!("cargo::rerun-if-changed=build.rs");
    println!("cargo::rerun-if-changed={}", archive.display());
    println!("cargo::rustc-link-arg-bins={}", archive.display());
}
