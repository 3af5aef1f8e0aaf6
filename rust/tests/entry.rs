//! The C entry over both files, and the program's text.
#![cfg(feature = "files_entry")]

use gabzeril_tests::checker::{
    report_text, words_of, Format, Row, ENTRY_WORDS, MOST_FILE_BYTES, MOST_ROWS, MOST_VALUE, POOL, RULE,
};
use gabzeril_tests::compare::{calls, run, Case};
use gabzeril_tests::generate::*;
use gabzeril_tests::largest;
use gabzeril_tests::random::Random;

const LIMIT: Together = Together { rows: 60, cost: 20_000 };

/// The bytes of a rule file and of a pool file.
type Files = (Vec<u8>, Vec<u8>);

#[test]
fn damaged_files() {
    let tally = run("damaged_files", 36_000, 100_000, |case| {
        let (rule, pool) = rule_and_pool(&mut case.random, LIMIT);
        let (rule, pool) = (RULE.text_of(&rule), POOL.text_of(&pool));
        for _ in 0..3 {
            let random = &mut case.random;
            let files = match random.below(5) {
                0 | 1 => (damaged_file(random, &rule), pool.clone()),
                2 | 3 => (rule.clone(), damaged_file(random, &pool)),
                _ => (damaged_file(random, &rule), damaged_file(random, &pool)),
            };
            if !takes_long(&files) {
                calls::check_files(case, &files.0, &files.1);
            }
        }
    });
    tally.saw_each([0, 7, 9, 18, 19], 200);
}

/// A damage may leave both files accepted, but far too long to evaluate.
fn takes_long((rule_file, pool_file): &Files) -> bool {
    files_cost(rule_file, pool_file) > 10 * LIMIT.cost
}

/// Well formed files of accepted and refused tables, too many lines, exchanged files.
#[test]
fn files_of_any_tables() {
    let tally = run("files_of_any_tables", 9_000, 20_000, |case| {
        for _ in 0..3 {
            let (rule, pool) = any_files(&mut case.random);
            calls::check_files(case, &rule, &pool);
        }
    });
    tally.saw_each([0, 18, 19], 100);
    tally.saw_each(RULE_FAULTS, 100);
    tally.saw_each(TABLE_FAULTS, 100);
    tally.saw_both_values(1_000);
}

fn any_files(random: &mut Random) -> Files {
    loop {
        let (mut rule, mut pool) = rule_and_pool(random, LIMIT);
        if random.chance(40) {
            rule = damaged_rule(random, &rule);
        }
        if random.chance(40) {
            pool = damaged_table(random, &pool);
        }
        let mut files = (RULE.text_of(&rule), POOL.text_of(&pool));
        match random.below(30) {
            0 => std::mem::swap(&mut files.0, &mut files.1),
            1 => files.0 = long_file(random, true),
            2 => files.1 = long_file(random, false),
            3 => files.0 = damaged_file(random, &files.0),
            4 => files.1 = damaged_file(random, &files.1),
            _ => {}
        }
        if !takes_long(&files) {
            return files;
        }
    }
}

/// More lines than the table may have; at times exactly the bytes that the program takes, or one more.
fn long_file(random: &mut Random, rule: bool) -> Vec<u8> {
    let lines = if rule { random.between(129, 400) } else { random.between(1_025, 1_100) };
    let mut file = file_of_words(random, rule, lines);
    if random.chance(50) {
        // Whole lines, and a last one that fills up to the length wanted and is not well formed.
        let length = MOST_FILE_BYTES + random.below(2);
        file = file.repeat(MOST_FILE_BYTES / file.len() + 1);
        file.truncate(length);
    }
    if random.chance(40) {
        damaged_file(random, &file)
    } else {
        file
    }
}

#[test]
fn reports() {
    let tally = run("reports", 6_000, 20_000, |case| {
        let (rule, pool) = any_files(&mut case.random);
        for _ in 0..4 {
            let length = case.random.below(81);
            let output = case.random.bytes(length);
            calls::report(case, &rule, &pool, &output);
        }
    });
    tally.saw_both_values(3_000);
}

/// Every length of the text's buffer.
#[test]
fn reports_of_every_length() {
    run("reports_of_every_length", 60, 4_000, |case| {
        let (rule, pool) = any_files(&mut case.random);
        for length in 0..=80 {
            let output = case.random.bytes(length);
            calls::report(case, &rule, &pool, &output);
        }
    });
}

/// Where a count or a place gets a digit more, and around it, up to the most rows.
const ENDS: [usize; 14] = [1, 2, 9, 10, 11, 99, 100, 101, 998, 999, 1_000, 1_001, 1_023, 1_024];

/// What the values of the full part are below, as all of `roots` are.
const VALUE_LIMIT: u32 = 10_000;

/// Every root named 1 has any value, and some root named 2 has one below the limit.
const RULE_OF_COUNTS: [u32; 20] =
    [2, 1, 2, 0, 5, 3, 0, 1, 6, 4, 0, 2, 9, 0, 1, MOST_VALUE, 8, 0, 1, VALUE_LIMIT];

/// Compares a report that must have this text, in buffers about as long.
fn report_of_text(case: &mut Case, rule: &[u8], pool: &[u8], text: &str) {
    assert_eq!(report_text(rule, pool), text);
    for length in [0, text.len() - 1, text.len(), text.len() + 1, text.len() + 20] {
        let output = case.random.bytes(length);
        calls::report(case, rule, pool, &output);
    }
}

/// Every count has one digit, two, three and four.
#[test]
fn reports_of_counts() {
    let counts = ENDS.into_iter().flat_map(|count| [[count, count, count, 1], [MOST_ROWS, count, 1, count]]);
    let counts = counts.chain([[1_024, 1_000, 100, 10], [1_000, 999, 99, 9], [101, 100, 10, 9]]);
    let counts: Vec<[usize; 4]> = counts.collect();
    run("reports_of_counts", 1, 150, |case| {
        for &[rows, branch, full, marks] in &counts {
            let pool = pool_of_counts(rows, branch, full, marks);
            let text = format!("verdict rows branch full marks\n1 {rows} {branch} {full} {marks}\n");
            report_of_text(case, &RULE.text_of(&RULE_OF_COUNTS), &POOL.text_of(&words_of(&pool)), &text);
        }
    });
}

/// Roots on which that rule is true and has these counts. The roots named 2 below the limit are the full
/// part, and the first of them is marked; so are all roots named 1, which are spare.
fn pool_of_counts(rows: usize, branch: usize, full: usize, marks: usize) -> Vec<Row> {
    let mut pool = roots(rows);
    for (place, row) in pool.iter_mut().enumerate() {
        match place {
            _ if place < full => row.name = 2,
            _ if place < full + marks - 1 => row.name = 1,
            _ if place < branch => (row.name, row.value) = (2, VALUE_LIMIT + row.value),
            _ => row.name = 3,
        }
    }
    pool
}

/// So many roots of one device; the value of each is its place.
fn roots(rows: usize) -> Vec<Row> {
    let root = |value: u32| Row { device: 1, at: value + 1, up: 0, deep: 0, name: 1, value };
    (0..rows as u32).map(root).collect()
}

/// The same of places, behind numbers of one digit and of two.
#[test]
fn reports_of_places() {
    run("reports_of_places", 1, 330, |case| {
        for place in [0].into_iter().chain(ENDS).filter(|&place| place < MOST_ROWS) {
            faulty_row(case, place, 9, |row| row.name = 0);
            faulty_row(case, place, 26, |row| row.deep = 1);
        }
        for place in [0, 1, 9, 10, 11, 99, 100, 101, 127] {
            let mut rule = largest::longest_rule();
            rule[place * ENTRY_WORDS] = 0;
            report_of_text(case, &RULE.text_of(&rule), b"", &refused(2, place));
        }
        for line in ENDS.into_iter().chain([2_000, 5_000]).filter(|&line| line > 1) {
            let rule = RULE.text_of(&RULE_OF_COUNTS);
            report_of_text(case, &faulty_line(RULE, line), b"", &refused(19, line));
            report_of_text(case, &rule, &faulty_line(POOL, line), &refused(19, line));
        }
        // The highest number that a line can have: the program takes no longer file. Between the first line
        // and the empty one stand as many lines of one digit in each column as there is room for.
        let lines = (MOST_FILE_BYTES - RULE.first_line.len() - 1) / "0 0 0 0\n".len();
        let last = 1 + lines + 1;
        report_of_text(case, &faulty_line(RULE, last), b"", &refused(19, last));
    });
}

fn refused(number: u32, place: usize) -> String {
    format!("refused place\n{number} {place}\n")
}

/// A report on a pool with a fault in one row.
fn faulty_row(case: &mut Case, place: usize, number: u32, damage: impl Fn(&mut Row)) {
    let mut pool = roots(MOST_ROWS);
    damage(&mut pool[place]);
    let (rule, pool) = (RULE.text_of(&RULE_OF_COUNTS), POOL.text_of(&words_of(&pool)));
    report_of_text(case, &rule, &pool, &refused(number, place));
}

/// A file whose line of this number, from 1, is the first that has a fault: it is empty.
fn faulty_line(format: Format, line: usize) -> Vec<u8> {
    let mut file = format.text_of(&vec![0; format.columns * (line - 2)]);
    file.push(b'\n');
    file
}
