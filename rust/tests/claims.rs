//! docs/CLAIMS.md names definitions, theorems, functions and must-fail edits: each must be there.

use std::fs;
use std::path::{Path, PathBuf};

fn root() -> PathBuf {
    Path::new(env!("CARGO_MANIFEST_DIR")).join("..")
}

fn texts(folder: &Path, found: &mut String) {
    for entry in fs::read_dir(folder).expect("a folder of the repository") {
        let path = entry.expect("an entry").path();
        // What rt keeps lies in out/.
        if path.is_dir() && path.ends_with("out") {
            continue;
        }
        if path.is_dir() {
            texts(&path, found);
        } else if path.extension().is_some_and(|e| e == "antt" || e == "rt" || e == "h") {
            found.push_str(&fs::read_to_string(&path).expect("a text file"));
        }
    }
}

fn is_word(c: char) -> bool {
    c.is_alphanumeric() || c == '_' || c == '-'
}

/// The parts of the text inside backticks and those outside.
fn split(text: &str) -> (Vec<&str>, Vec<&str>) {
    let parts: Vec<&str> = text.split('`').collect();
    let inside = parts.iter().skip(1).step_by(2).copied().collect();
    let outside = parts.iter().step_by(2).copied().collect();
    (inside, outside)
}

#[test]
fn every_name_is_there() {
    let claims = fs::read_to_string(root().join("docs/CLAIMS.md")).expect("docs/CLAIMS.md");
    let mut sources = String::new();
    texts(&root().join("crates"), &mut sources);
    texts(&root().join("include"), &mut sources);
    let names: std::collections::HashSet<&str> = sources.split(|c| !is_word(c)).collect();
    let mut checked = 0;
    for token in split(&claims).0 {
        for name in token.split(|c: char| !is_word(c)).filter(|n| n.len() > 1) {
            let known = names.contains(name) || root().join("crates").join(name).is_dir();
            assert!(
                known || token.contains('/') || token.ends_with('*') || token.starts_with('◌'),
                "CLAIMS names `{token}`, and {name} is nowhere"
            );
            checked += 1;
        }
    }
    assert!(checked > 100, "only {checked} names");
}

/// `crate/name` outside backticks is a must-fail edit, a file of definitions or a file of theorems.
#[test]
fn every_file_is_there() {
    let claims = fs::read_to_string(root().join("docs/CLAIMS.md")).expect("docs/CLAIMS.md");
    let mut checked = 0;
    for part in split(&claims).1 {
        let words = part.split(|c: char| !(is_word(c) || c == '/')).filter(|w| w.matches('/').count() == 1);
        for word in words {
            let (folder, name) = word.split_once('/').expect("a slash");
            let base = root().join("crates").join(folder);
            if !base.is_dir() || name.is_empty() {
                continue;
            }
            let places = [("must-fail", "edit"), ("specs", "antt"), ("proofs", "antt")];
            let there = places.iter().any(|(f, e)| base.join(f).join(format!("{name}.{e}")).is_file());
            assert!(there, "CLAIMS names {word}, which is no edit and no file of definitions or theorems");
            checked += 1;
        }
    }
    assert!(checked > 30, "only {checked} files");
}
