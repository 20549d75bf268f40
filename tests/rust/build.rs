//! Makes the static library of the proved code and tells cargo to link it. Where GRID_ARCHIVE names one that is made already,
//! as `./test` does, that one is linked.

use std::env;
use std::fs;
use std::path::{Path, PathBuf};
use std::process::Command;

fn main() {
    println!("cargo:rerun-if-changed=build.rs");
    println!("cargo:rerun-if-changed=../../crates.txt");
    // All that a crate is made from, and not its out/, which rt writes.
    for found in fs::read_dir("../../crates").unwrap() {
        let crate_folder = found.unwrap().path();
        for part in ["src", "specs", "proofs"].map(|part| crate_folder.join(part)).iter().filter(|part| part.exists()) {
            println!("cargo:rerun-if-changed={}", part.display());
        }
    }
    println!("cargo:rerun-if-env-changed=GRID_ARCHIVE");
    let out = env::var("OUT_DIR").unwrap();
    let archive = env::var_os("GRID_ARCHIVE").map_or_else(make, PathBuf::from);
    // A copy is linked, so that a build outlives the removal of the archive.
    fs::copy(archive, Path::new(&out).join("libcapi.a")).expect("the archive could not be copied");
    println!("cargo:rustc-link-search=native={out}");
    println!("cargo:rustc-link-lib=static=capi");
}

fn make() -> PathBuf {
    let crate_folder = Path::new(&env::var("CARGO_MANIFEST_DIR").unwrap()).join("../../crates/capi");
    let status = Command::new("rt").arg("lib").current_dir(&crate_folder).status().expect("rt could not be started");
    assert!(status.success(), "rt lib failed in crates/capi");
    crate_folder.join("out/libcapi.a")
}
