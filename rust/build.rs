//! Links the proved library, which `tools/prove-library` writes to
//! target/staticlib of the repository; THYMEBARREL_LIB names another folder, seen from
//! where cargo was started. Without the library `cargo check` and `cargo doc` work, and
//! what must be linked fails with the warning below.

use std::env;
use std::path::{Path, PathBuf};

const LIBRARY: &str = "libthymebarrel.a";

fn main() {
    println!("cargo:rerun-if-env-changed=THYMEBARREL_LIB");
    let here = PathBuf::from(env::var("CARGO_MANIFEST_DIR").expect("cargo sets it"));
    let folder = match env::var_os("THYMEBARREL_LIB") {
        Some(named) => from_where_the_user_stands(Path::new(&named), &here),
        None => here.join("../target/staticlib"),
    };
    let library = folder.join(LIBRARY);
    println!("cargo:rerun-if-changed={}", library.display());
    if !library.exists() {
        println!("cargo:warning={} is not there.", library.display());
        println!("cargo:warning=At the top of the repository run: tools/prove-library");
    }
    println!("cargo:rustc-link-search=native={}", folder.display());
    println!("cargo:rustc-link-lib=static=thymebarrel");
}

/// A build script runs in the package's folder; the shell's is in PWD.
fn from_where_the_user_stands(named: &Path, here: &Path) -> PathBuf {
    println!("cargo:rerun-if-env-changed=PWD");
    let stood = env::var_os("PWD").map(|folder| Path::new(&folder).join(named));
    match stood {
        Some(folder) if named.is_relative() && folder.join(LIBRARY).exists() => folder,
        _ => here.join(named),
    }
}
