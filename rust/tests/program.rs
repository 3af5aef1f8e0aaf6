//! The program, run in folders of its own. Without the built program there is nothing to run.
#![cfg(feature = "files_entry")]

use std::fs;
use std::path::{Path, PathBuf};
use std::process::Command;

use gabzeril_tests::answer::Answer;
use gabzeril_tests::checker::{report_text, Format, MOST_FILE_BYTES, POOL, RULE};
use gabzeril_tests::compare::{run, Case};
use gabzeril_tests::generate::*;

/// A file of a folder; none if it does not exist.
type File = Option<Vec<u8>>;

fn program() -> Option<PathBuf> {
    let path = Path::new(env!("CARGO_MANIFEST_DIR")).join("..").join("target").join("bin").join("gabzeril");
    path.canonicalize().ok()
}

/// What the program prints in a folder with these files.
fn printed(program: &Path, name: &str, rule: &File, pool: &File) -> String {
    let folder = std::env::temp_dir().join(format!("gabzeril-{}-{name}", std::process::id()));
    fs::create_dir_all(&folder).expect("a folder");
    for (file, content) in [("rule.txt", rule), ("pool.txt", pool)] {
        if let Some(content) = content {
            fs::write(folder.join(file), content).expect("a file");
        }
    }
    let output = Command::new(program).current_dir(&folder).output().expect("the program runs");
    fs::remove_dir_all(&folder).expect("the folder is removed");
    String::from_utf8(output.stdout).expect("text")
}

/// A file that cannot be opened counts as empty.
fn content(file: &File) -> Vec<u8> {
    file.clone().unwrap_or_default()
}

/// Counts one comparison of what the program prints.
fn compare(case: &mut Case, program: &Path, name: &str, rule: &File, pool: &File) {
    let expected = report_text(&content(rule), &content(pool));
    let found = printed(program, name, rule, pool);
    case.compared(found == expected, Answer::Done(0), || {
        format!("{name} {rule:?} {pool:?}: {expected:?}, found {found:?}")
    });
}

#[test]
fn random_files() {
    let Some(program) = program() else { return };
    let limit = Together { rows: 60, cost: 20_000 };
    run("random_files", 300, 200, |case| {
        let random = &mut case.random;
        let (rule, devices) = rule_and_devices(random, limit);
        let mut files = [RULE.text_of(&rule), POOL.text_of(&devices.concat())].map(Some);
        if random.chance(30) {
            let which = random.below(2);
            files[which] = files[which].as_ref().map(|file| damaged_file(random, file));
        }
        let [rule, pool] = files;
        // A damage may leave both files accepted, but far too long to evaluate.
        if files_cost(&content(&rule), &content(&pool)) <= 10 * limit.cost {
            compare(case, &program, "random", &rule, &pool);
        }
    });
}

/// Missing, empty and long files.
#[test]
fn sizes() {
    let Some(program) = program() else { return };
    let rule = Some(RULE.text_of(&[6, 1, 0, 1, 7, 0, 1, 5]));
    let pool = Some(POOL.text_of(&[1, 1, 0, 0, 1, 5]));
    let of_length = |length: usize| Some(vec![b'1'; length]);
    let long_lines = |file: &File, format: Format, lines: usize| {
        let line = vec!["1"; format.columns].join(" ") + "\n";
        file.as_ref().map(|file| [&file[..], line.repeat(lines).as_bytes()].concat())
    };
    run("sizes", 1, 20, |case| {
        for other in [None, Some(vec![]), of_length(MOST_FILE_BYTES), of_length(MOST_FILE_BYTES + 1)] {
            compare(case, &program, "sizes", &other, &pool);
            compare(case, &program, "sizes", &rule, &other);
            compare(case, &program, "sizes", &other, &other);
        }
        compare(case, &program, "sizes", &rule, &pool);
        // Of each file, some have many lines and few enough bytes, and some too many bytes.
        for lines in [127, 1_023, 1_024, 5_000, 6_000, 7_000, 9_000] {
            compare(case, &program, "sizes", &long_lines(&rule, RULE, lines), &pool);
            compare(case, &program, "sizes", &rule, &long_lines(&pool, POOL, lines));
        }
    });
}
