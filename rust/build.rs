//! Links the static library, unless every feature is off: then only the checker itself is built.

use std::env;
use std::path::PathBuf;

const FEATURES: [&str; 9] =
    ["LOWER", "ENGINE", "PARTS", "FILES_ENTRY", "SETS", "TRIAL", "TEMPLATES", "ARCHIVE", "FOLD"];

fn main() {
    let manifest = PathBuf::from(env::var_os("CARGO_MANIFEST_DIR").expect("set by cargo"));
    let folder = manifest.join("..").join("target").join("staticlib");
    println!("cargo:rerun-if-changed={}", folder.join("libentry.a").display());
    let linked = FEATURES.iter().any(|name| env::var_os(format!("CARGO_FEATURE_{name}")).is_some());
    if linked {
        println!("cargo:rustc-link-search=native={}", folder.display());
        // Not bundled, so that this package compiles before the library is built.
        println!("cargo:rustc-link-lib=static:-bundle=entry");
    }
}
