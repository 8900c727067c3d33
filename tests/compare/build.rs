//! Links the archive that `rt lib` in crates/interface writes, or the one in the folder that SCANCHECK_ARCHIVE names.

use std::{env, path::PathBuf};

fn main() {
    let root = PathBuf::from(env::var("CARGO_MANIFEST_DIR").unwrap()).join("../..");
    let folder = env::var("SCANCHECK_ARCHIVE").map(PathBuf::from).unwrap_or(root.join("crates/interface/out"));
    let archive = folder.join("libinterface.a");
    println!("cargo:rerun-if-env-changed=SCANCHECK_ARCHIVE");
    println!("cargo:rerun-if-changed={}", archive.display());
    assert!(archive.exists(), "no {}: run `rt lib` in crates/interface first", archive.display());
    println!("cargo:rustc-link-search=native={}", folder.canonicalize().unwrap().display());
    println!("cargo:rustc-link-lib=static=interface");
}
