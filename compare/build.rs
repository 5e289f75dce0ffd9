//! Links the proved library, which `host/library` writes.

use std::{env, path::PathBuf};

fn main() {
    let here = PathBuf::from(env::var_os("CARGO_MANIFEST_DIR").expect("cargo sets this"));
    let folder = here.join("../target/staticlib");
    let archive = folder.join("libunit.a");
    assert!(
        archive.exists(),
        "target/staticlib/libunit.a is missing: run `host/library` first"
    );
    println!("cargo:rerun-if-changed={}", archive.display());
    println!("cargo:rustc-link-search=native={}", folder.display());
    println!("cargo:rustc-link-lib=static=unit");
}
