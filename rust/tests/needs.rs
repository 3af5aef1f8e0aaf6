//! What the library needs from outside: a C program without a C library has to bring copying and clearing alone.

use std::path::Path;
use std::process::Command;

#[test]
fn copying_and_clearing_alone() {
    let library = Path::new(env!("CARGO_MANIFEST_DIR")).join("../target/staticlib/libentry.a");
    let told = Command::new("objdump").arg("-t").arg(library).output().expect("objdump");
    assert!(told.status.success(), "objdump reads no library");
    let table = String::from_utf8(told.stdout).expect("text");
    let undefined = table.lines().filter(|line| line.contains("*UND*"));
    let mut needed: Vec<&str> = undefined.filter_map(|line| line.split_whitespace().last()).collect();
    needed.sort_unstable();
    needed.dedup();
    assert_eq!(needed, ["memcpy", "memset"]);
}
