//! Links `build/libix.a`, which `make lib` at the top of the repository makes; IX_LIB_DIR names another folder.

use std::env;
use std::path::PathBuf;

fn main() {
    let beside = PathBuf::from(env::var_os("CARGO_MANIFEST_DIR").unwrap()).join("../build");
    let folder = env::var_os("IX_LIB_DIR").map_or(beside, PathBuf::from);
    println!("cargo:rerun-if-env-changed=IX_LIB_DIR");
    println!("cargo:rerun-if-changed={}", folder.join("libix.a").display());
    println!("cargo:rustc-link-search=native={}", folder.display());
    println!("cargo:rustc-link-lib=static=ix");
}
