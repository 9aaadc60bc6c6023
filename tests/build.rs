//! Links libsheet.a, the archive under test, if the feature `linked` is on. SHEET_LIB_DIR names its
//! folder; the default is where `make lib` puts it. With the feature `before`, links libbefore.a too,
//! which `before` makes of an earlier commit; SHEET_BEFORE_DIR names its folder.

use std::env;
use std::path::PathBuf;

fn main() {
    if env::var_os("CARGO_FEATURE_LINKED").is_some() {
        link("sheet", "SHEET_LIB_DIR", "../target/staticlib");
    }
    if env::var_os("CARGO_FEATURE_BEFORE").is_some() {
        link("before", "SHEET_BEFORE_DIR", "../build/before");
    }
}

fn link(library: &str, variable: &str, default: &str) {
    println!("cargo:rerun-if-env-changed={variable}");
    // A relative folder is meant from this package, not from where cargo runs the compiler.
    let package = PathBuf::from(env::var_os("CARGO_MANIFEST_DIR").expect("cargo sets it"));
    let folder = package.join(env::var_os(variable).unwrap_or_else(|| default.into()));
    println!("cargo:rerun-if-changed={}", folder.join(format!("lib{library}.a")).display());
    println!("cargo:rustc-link-search=native={}", folder.display());
    println!("cargo:rustc-link-lib=static={library}");
}
