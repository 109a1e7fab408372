//! Finds the archive: `libultra.a` in the folder that the environment variable
//! `ULTRA_ARCHIVE_DIR` names (an absolute path).

use std::env;
use std::path::PathBuf;

fn main() {
    println!("cargo::rerun-if-changed=build.rs");
    println!("cargo::rerun-if-env-changed=ULTRA_ARCHIVE_DIR");
    let folder = env::var_os("ULTRA_ARCHIVE_DIR")
        .map(PathBuf::from)
        .expect("ULTRA_ARCHIVE_DIR is to name the folder of libultra.a");
    let archive = folder.join("libultra.a");
    println!("cargo::rerun-if-changed={}", archive.display());
    assert!(archive.is_file(), "there is no {}", archive.display());
    println!("cargo::rustc-link-search=native={}", folder.display());
    println!("cargo::rustc-link-lib=static=ultra");
}
