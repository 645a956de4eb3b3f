//! With the feature `pieces`: links the pieces of the proved library, whose archive
//! `tools/bench --pieces` writes to target/staticlib of the repository.

use std::env;
use std::path::PathBuf;

fn main() {
    println!("cargo:rerun-if-changed=build.rs");
    if env::var_os("CARGO_FEATURE_PIECES").is_none() {
        return;
    }
    let here = PathBuf::from(env::var("CARGO_MANIFEST_DIR").expect("cargo sets it"));
    let folder = here.join("../target/staticlib");
    println!("cargo:rerun-if-changed={}", folder.join("libpieces.a").display());
    println!("cargo:rustc-link-search=native={}", folder.display());
    println!("cargo:rustc-link-lib=static=pieces");
}
