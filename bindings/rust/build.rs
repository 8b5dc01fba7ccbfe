//! Says where the proved library stands: the folder in ORLYUKAN_NATIVE, else target/native at the repository's root.

use std::{env, path::PathBuf};

fn main() {
    let here = PathBuf::from(env::var_os("CARGO_MANIFEST_DIR").expect("cargo sets it"));
    let folder = env::var_os("ORLYUKAN_NATIVE").map_or_else(|| here.join("../../target/native"), PathBuf::from);
    let archive = folder.join("liborlyukan.a");
    assert!(archive.exists(), "{} is missing: tests/native builds it", archive.display());
    println!("cargo:rerun-if-env-changed=ORLYUKAN_NATIVE");
    println!("cargo:rerun-if-changed={}", archive.display());
    println!("cargo:rustc-link-search=native={}", folder.display());
    println!("cargo:rustc-link-lib=static=orlyukan");
}
