//! Links libmukerihe_bank.a and libmukerihe.a from the folder $MUKERIHE_LIBRARIES, or from
//! ../target/staticlib, where `tools/build.sh` puts them.

use std::env::var_os;
use std::path::PathBuf;

/// Tells cargo what to link, and when to build anew.
fn main() {
    let here = PathBuf::from(var_os("CARGO_MANIFEST_DIR").unwrap_or_default());
    let beside = || here.join("../target/staticlib");
    let folder = var_os("MUKERIHE_LIBRARIES").map_or_else(beside, PathBuf::from);
    println!("cargo:rustc-link-search=native={}", folder.display());
    println!("cargo:rustc-link-lib=static=mukerihe_bank");
    println!("cargo:rustc-link-lib=static=mukerihe");
    println!("cargo:rerun-if-env-changed=MUKERIHE_LIBRARIES");
    println!("cargo:rerun-if-changed={}", folder.display());
}
