//! No number is written by dividing: a look at the source, and one at the compiled library and program, since
//! an optimiser may turn a loop of subtractions into a division, and a division by ten into a multiplication.

use std::fs;
use std::path::{Path, PathBuf};
#[cfg(any(feature = "lower", feature = "files_entry"))]
use std::process::Command;

fn root() -> PathBuf {
    Path::new(env!("CARGO_MANIFEST_DIR")).join("..")
}

/// What writes a number, with all that it calls. Nothing else makes the byte of a digit: but for these and
/// the reader, no source has the byte of the digit 0.
const WRITERS: [&str; 3] =
    ["crates/powers/src/lib.rt", "crates/tables/src/writing.rt", "crates/tables/src/columns.rt"];

/// What reads digits.
const READER: &str = "crates/tables/src/reading.rt";

/// What the other sources divide by: words of a row, an entry and a step, halves, the depths that a guess tells
/// apart, and the hash's powers of two.
const DIVISORS: [&str; 7] = ["ROW_WORDS", "ENTRY_WORDS", "STEP_WORDS", "2", "DEPTHS", "4294967296", "4194304"];

/// Every source below the folder, by its path from the repository's root.
fn sources(folder: &str, found: &mut Vec<String>) {
    for entry in fs::read_dir(root().join(folder)).expect("a folder of the repository") {
        let entry = entry.expect("an entry");
        let path = format!("{folder}/{}", entry.file_name().to_str().expect("a plain name"));
        if entry.path().is_dir() && entry.file_name() != "out" {
            sources(&path, found);
        } else if path.ends_with(".rt") {
            found.push(path);
        }
    }
}

/// The code of a source: without comments, contracts and what only proofs see.
fn code(path: &str) -> String {
    let text = fs::read_to_string(root().join(path)).expect("a source");
    let seen = |line: &&str| {
        !["requires ", "ensures ", "ghost "].iter().any(|word| line.trim_start().starts_with(word))
    };
    text.lines().filter(seen).map(|line| line.split("//").next().expect("a part").to_owned() + "\n").collect()
}

/// What the code divides by, or takes a remainder by.
fn divisors(code: &str) -> Vec<String> {
    let after = |(place, _): (usize, &str)| {
        let rest = code[place + 1..].trim_start_matches('=').trim_start();
        rest.chars().take_while(|c| c.is_alphanumeric() || *c == '_').collect()
    };
    code.match_indices(['/', '%']).map(after).collect()
}

/// Whether the code has the byte of the digit 0: as a character, or as a number that stands alone.
fn has_byte_of_zero(code: &str) -> bool {
    code.contains("b'0'") || code.split(|c: char| !c.is_alphanumeric() && c != '_').any(|token| token == "48")
}

#[test]
fn digits_are_not_found_by_dividing() {
    let mut paths = vec![];
    sources("crates", &mut paths);
    assert!(paths.len() > 40, "only {} sources", paths.len());
    for path in &paths {
        let code = code(path);
        let writes = WRITERS.contains(&path.as_str());
        for by in divisors(&code) {
            assert!(!writes, "{path} writes numbers, and divides by {by}");
            let listed = DIVISORS.contains(&by.as_str());
            assert!(listed, "{path} divides by {by}: list it in DIVISORS if it writes no number");
        }
        assert!(writes || path == READER || !has_byte_of_zero(&code), "{path} has the byte of the digit 0");
    }
    for path in WRITERS.into_iter().chain([READER]) {
        assert!(paths.contains(&path.to_string()), "there is no {path}");
    }
}

#[test]
fn the_look_at_the_source_finds_divisions() {
    assert_eq!(divisors("v /= 10; out[i] = b'0' + (v % 10) as u8; n / ROW_WORDS"), ["10", "10", "ROW_WORDS"]);
    assert!(divisors("v -= p; w * 10").is_empty());
}

#[test]
fn the_look_at_the_source_finds_the_byte_of_zero() {
    assert!(["out[i] = d + b'0';", "d + 48", "out[i] = 48;", "(48 + d)"].into_iter().all(has_byte_of_zero));
    assert!(!["148 + 480", "4_480", "w48", "f_48(x)", "b'1'", ""].into_iter().any(has_byte_of_zero));
}

/// An instruction that divides, or that multiplies by what compilers put for a division by ten.
fn divides(instruction: &str) -> bool {
    let name = instruction.split_whitespace().find(|word| !word.ends_with(':')).unwrap_or("");
    name.starts_with("div") || name.starts_with("idiv") || multiplies_for_ten(instruction)
}

/// Some of them also serve a division by five, of which there is none either.
const MULTIPLIERS: [&str; 6] =
    ["0xcccd", "0xcccccccd", "0xcccccccccccccccd", "0x66666667", "0x6666666666666667", "0x1999999a"];

fn multiplies_for_ten(instruction: &str) -> bool {
    MULTIPLIERS.iter().any(|number| {
        let ends =
            |(place, _)| !instruction[place + number.len()..].starts_with(|c: char| c.is_ascii_hexdigit());
        instruction.match_indices(number).any(ends)
    })
}

/// The instructions of a file that the command compiles.
#[cfg(any(feature = "lower", feature = "files_entry"))]
fn instructions(file: &str, command: &str) -> String {
    let path = root().join(file);
    assert!(path.is_file(), "{file} is not built: `{command}` does");
    let listed = Command::new("objdump").args(["-d", "--no-show-raw-insn"]).arg(path).output();
    let listed = listed.expect("objdump, of binutils");
    assert!(listed.status.success(), "{}", String::from_utf8_lossy(&listed.stderr));
    String::from_utf8(listed.stdout).expect("plain text")
}

#[cfg(any(feature = "lower", feature = "files_entry"))]
fn divides_nowhere(file: &str, command: &str) {
    let text = instructions(file, command);
    let found: Vec<&str> = text.lines().filter(|line| divides(line)).collect();
    assert!(text.lines().count() > 1_000, "{file} has hardly an instruction");
    assert!(found.is_empty(), "{file}: {found:#?}");
}

#[cfg(feature = "lower")]
#[test]
fn the_library_divides_no_number() {
    divides_nowhere("target/staticlib/libentry.a", "make target/staticlib/libentry.a");
}

#[cfg(feature = "files_entry")]
#[test]
fn the_program_divides_no_number() {
    divides_nowhere("target/bin/gabzeril", "make target/bin/gabzeril");
}

#[test]
fn the_look_at_instructions_finds_divisions() {
    assert!(divides("  6e:\tmov    $0xcccccccd,%edx"));
    assert!(divides("  6e:\timul   $0xcccd,%eax,%eax"));
    assert!(divides("  6e:\tmovabs $0x6666666666666667,%rdx"));
    assert!(divides("  1f:\tdiv    %ecx"));
    assert!(divides("  1f:\tidivq  0x8(%rsp)"));
    assert!(!divides("  5f:\tmovabs $0xaaaaaaaaaaaaaaab,%rcx"));
    assert!(!divides("  77:\tsub    %edx,%eax"));
}
