//! Compiles the loops that stand beside the library's calls, and links them.

use std::env;
use std::path::PathBuf;
use std::process::Command;

/// Warnings are errors, since cargo does not show those of a build that succeeds.
const OPTIONS: [&str; 8] =
    ["-O2", "-fPIE", "-std=c11", "-Wall", "-Wextra", "-Wpedantic", "-Werror", "-I../include"];

fn main() {
    for file in ["loops.c", "lists.h", "../include/gabzeril.h"] {
        println!("cargo:rerun-if-changed={file}");
    }
    let object = PathBuf::from(env::var_os("OUT_DIR").expect("set by cargo")).join("loops.o");
    let status = Command::new("gcc").args(OPTIONS).args(["-c", "loops.c", "-o"]).arg(&object).status();
    assert!(status.expect("gcc is there").success(), "loops.c does not compile");
    println!("cargo:rustc-link-arg={}", object.display());
}
