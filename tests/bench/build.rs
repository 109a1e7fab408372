//! Finds the archive of the walk: `libwalks.a`, made of walks.c, in the folder that
//! `ULTRA_WALKS_DIR` names (an absolute path, which bench.mk sets).

use std::env;
use std::path::PathBuf;

fn main() {
    println!("cargo::rerun-if-changed=build.rs");
    println!("cargo::rerun-if-env-changed=ULTRA_WALKS_DIR");
    let folder = env::var_os("ULTRA_WALKS_DIR")
        .map(PathBuf::from)
        .expect("ULTRA_WALKS_DIR is to name the folder of libwalks.a");
    let archive = folder.join("libwalks.a");
    println!("cargo::rerun-if-changed={}", archive.display());
    assert!(archive.is_file(), "there is no {}", archive.display());
    println!("cargo::rustc-link-search=native={}", folder.display());
    println!("cargo::rustc-link-lib=static=walks");
}
