//! Rules and tables whose words are chosen for their digits and signs, written and read back.
//!
//! A library that finds digits by subtracting powers of ten may be wrong in these ways. What shows each:
//!
//! - One power is wrong: numbers of as many digits or more. Every column has each width that it takes
//!   (`saw_each_width`), and every value from -100,000 to 100,000 is written.
//! - A power is not subtracted where it is all that is left (`<` for `<=`), or is not the first subtracted
//!   where it is the whole number: digits followed by zeros, as 10, 200, 2,300,000 and 1,000,000,000.
//! - The first power is one too high, which gives a leading zero, or one too low: any number. Where this is
//!   so at one width alone, the ends of that width, 0 among them.
//! - A digit stops at eight: a 9, at each place. Every other digit stands at each place too
//!   (`saw_each_digit`), and 9, 99 and so on up to 999,999,999 stand alone.
//! - A sign is missing, or stands where none may: values and constants have each width with a sign too, and no
//!   other column has one (`saw_each_width_below_zero`). Names and variables stand in the column of constants.
//! - A word below zero is written as another number than it stands for: any of them, and -2,147,483,648, which
//!   has no counterpart above zero.
//! - A length is wrong: each number stands alone in buffers of every length. One byte short is 17, and no
//!   byte is changed; where the text just fits, the value is its length, and nothing is written past it. A
//!   sign is one of the bytes, of which a number has up to eleven.
//! - The ends of widths and columns: `ends_of_digits` has 9 and 10, 99 and 100, up to 999,999,999 and
//!   1,000,000,000, and the largest number of each column. `ends_of_values` has those up to 2,147,483,647 and
//!   down to -2,147,483,648.
//!
//! Any word may be a value or a constant, and is written as the number that it stands for. No other word of an
//! accepted rule or table is above 65,535, so no larger one is written. Up to 4,294,967,295 they stand in damaged
//! rules and tables, which are refused, and in files that are read.
#![cfg(feature = "lower")]

use gabzeril_tests::answer::Answer;
use gabzeril_tests::checker::{
    check_rule, check_table, words_of, Format, Row, LEAST_VALUE, MOST_ENTRIES, MOST_NAME, MOST_ROWS,
    MOST_VALUE, POOL, RULE,
};
use gabzeril_tests::compare::{calls, run, Case};
use gabzeril_tests::generate::*;
use gabzeril_tests::random::Random;
use gabzeril_tests::{ffi, largest};

/// The largest number of each column that is written.
const MOST_OF_ROW: [u32; 6] =
    [MOST_NAME, MOST_NAME, MOST_NAME - 1, MOST_ROWS as u32 - 1, MOST_NAME, MOST_VALUE];
const MOST_OF_ENTRY: [u32; 4] = [9, MOST_ENTRIES as u32 - 1, MOST_ENTRIES as u32 - 1, MOST_VALUE];

/// The most digits of a number that is written, behind its sign if it has one.
const MOST_DIGITS: usize = 10;

/// The numbers of accepted rules or tables that were written.
#[derive(Default)]
struct Written {
    /// How many, by column, number of signs and number of digits.
    widths: [[[u64; MOST_DIGITS + 1]; 2]; 6],
    /// How often each digit stood at each place, the last place first.
    digits: [[u64; 10]; MOST_DIGITS],
}

impl Written {
    fn count(&mut self, text: &[u8]) {
        let lines = std::str::from_utf8(text).expect("plain text").lines();
        for (column, number) in lines.skip(1).flat_map(|line| line.split(' ').enumerate()) {
            let digits = number.trim_start_matches('-');
            self.widths[column][number.len() - digits.len()][digits.len()] += 1;
            for (counts, digit) in self.digits.iter_mut().zip(digits.bytes().rev()) {
                counts[(digit - b'0') as usize] += 1;
            }
        }
    }

    /// Fails unless each column had numbers of each width, up to that of its largest, at least so often.
    fn saw_each_width(&self, most_of_columns: &[u32], least: u64) {
        for (column, &most) in most_of_columns.iter().enumerate() {
            self.saw_widths(column, 0, most, least);
        }
    }

    /// The same of values or constants below zero; no other column had a sign.
    fn saw_each_width_below_zero(&self, columns: usize, least: u64) {
        self.saw_widths(columns - 1, 1, LEAST_VALUE, least);
        assert!(self.widths[..columns - 1].iter().all(|[_, below_zero]| below_zero == &[0; MOST_DIGITS + 1]));
    }

    fn saw_widths(&self, column: usize, signs: usize, most: u32, least: u64) {
        let seen = &self.widths[column][signs][1..=width_of(most)];
        assert!(seen.iter().all(|&seen| seen >= least), "widths seen in column {column}: {seen:?}");
    }

    /// Fails unless each digit stood at each place at least so often. The tenth from the end is 1 or 2.
    fn saw_each_digit(&self, least: u64) {
        for (place, seen) in self.digits.iter().enumerate() {
            let possible = if place + 1 < MOST_DIGITS { &seen[..] } else { &seen[1..=2] };
            assert!(possible.iter().all(|&seen| seen >= least), "digits seen at place {place}: {seen:?}");
        }
    }
}

/// How rules, or tables, are written, read and damaged.
struct Kind {
    format: Format,
    write: fn(&mut Case, &[u32], &[u8]),
    read: fn(&mut Case, &[u8], &[u32]),
    damage: fn(&mut Random, &[u32]) -> Vec<u32>,
}

const RULES: Kind =
    Kind { format: RULE, write: calls::write_rule, read: calls::read_rule, damage: damaged_rule };
const TABLES: Kind =
    Kind { format: POOL, write: calls::write_pool, read: calls::read_pool, damage: damaged_table };

/// Accepted words are written into several buffers and read back; then two damaged ones are written.
fn write_and_read(case: &mut Case, kind: &Kind, words: &[u32]) {
    let text = kind.format.text_of(words);
    for length in lengths(&mut case.random, text.len()) {
        let output = case.random.bytes(length);
        (kind.write)(case, words, &output);
    }
    let output = case.random.words(words.len());
    (kind.read)(case, &text, &output);
    for damage in [kind.damage, with_another_number] {
        let damaged = damage(&mut case.random, words);
        let length = one_length_around(&mut case.random, text.len());
        let output = case.random.bytes(length);
        (kind.write)(case, &damaged, &output);
    }
}

fn write_at_every_length(case: &mut Case, kind: &Kind, words: &[u32]) {
    for length in 0..kind.format.text_of(words).len() + 4 {
        let output = case.random.bytes(length);
        (kind.write)(case, words, &output);
    }
}

#[test]
fn writing_tables() {
    let mut written = Written::default();
    let tally = run("tables_of_digits", 5_000, 50_000, |case| {
        let table = table(&mut case.random);
        written.count(&POOL.text_of(&table));
        write_and_read(case, &TABLES, &table);
    });
    tally.saw_each([0], 20_000);
    tally.saw_each([17], 10_000);
    tally.saw_each([9], 1_000);
    tally.saw_each(TABLE_FAULTS, 100);
    written.saw_each_width(&MOST_OF_ROW, 500);
    written.saw_each_width_below_zero(POOL.columns, 500);
    written.saw_each_digit(1_000);
}

/// At times one path of rows, so that deep has as many digits as it can.
fn table(random: &mut Random) -> Vec<u32> {
    let vocabulary = Vocabulary::new(random);
    let mut shape = PoolShape::new(random);
    if random.chance(1) {
        shape = PoolShape { rows: MOST_ROWS, devices: 1, roots: 0, wide: false, chained: 100, ..shape };
    }
    let table = pool_of(random, &vocabulary, shape);
    renumbered_table(random, &table)
}

/// Each length around the text, and two that are a few bytes shorter and longer.
fn lengths(random: &mut Random, bytes: usize) -> Vec<usize> {
    let few = [bytes - random.between(2, 10), bytes + random.between(2, 10)];
    [&lengths_around(bytes)[..], &few].concat()
}

/// Any number, up to the largest word, in the place of some word.
fn with_another_number(random: &mut Random, words: &[u32]) -> Vec<u32> {
    if words.is_empty() {
        return vec![];
    }
    let place = random.below(words.len());
    with_number(words, place, number_up_to(random, u32::MAX))
}

#[test]
fn writing_rules() {
    let mut written = Written::default();
    let tally = run("rules_of_digits", 7_000, 70_000, |case| {
        let vocabulary = Vocabulary::new(&mut case.random);
        let rule = rule(&mut case.random, &vocabulary);
        let rule = renumbered_rule(&mut case.random, &rule);
        written.count(&RULE.text_of(&rule));
        write_and_read(case, &RULES, &rule);
    });
    tally.saw_each([0], 20_000);
    tally.saw_each([17], 10_000);
    tally.saw_each(RULE_FAULTS, 200);
    written.saw_each_width(&MOST_OF_ENTRY, 1_000);
    written.saw_each_width_below_zero(RULE.columns, 1_000);
    written.saw_each_digit(100);
}

/// Every end of digits in each column that takes it, in buffers of every length.
#[test]
fn each_number_alone() {
    let tally = run("each_number_alone", 1, 40_000, |case| {
        for table in tables_of_one_number() {
            write_at_every_length(case, &TABLES, &table);
        }
        for rule in rules_of_one_number() {
            write_at_every_length(case, &RULES, &rule);
        }
    });
    tally.saw_each([0], 3_000);
    tally.saw_each([17], 30_000);
}

/// The other words have one digit, but for the ats where the number is an up.
fn tables_of_one_number() -> Vec<Vec<u32>> {
    let names = || ends_of_digits(MOST_NAME).into_iter().filter(|&number| number > 0);
    let devices = names().map(|number| vec![number, 1, 0, 0, 1, 1]);
    let ats = names().map(|number| vec![1, number, 0, 0, 1, 1]);
    // Nothing hangs under the largest at, since it would come behind.
    let parents = names().filter(|&number| number < MOST_NAME);
    let ups = parents.map(|number| vec![1, number, 0, 0, 1, 1, 1, number + 1, number, 1, 1, 1]);
    let names = names().map(|number| vec![1, 1, 0, 0, number, 1]);
    let values = ends_of_values().into_iter().map(|word| vec![1, 1, 0, 0, 1, word]);
    devices.chain(ats).chain(ups).chain(names).chain(values).collect()
}

/// A name, also that of quantifiers over any, or a constant.
fn rules_of_one_number() -> Vec<Vec<u32>> {
    let names = ends_of_digits(MOST_NAME).into_iter();
    let of_names = names.map(|number| vec![5, 1, 0, number, 7, 0, 1, 1]);
    let constants = ends_of_values().into_iter();
    of_names.chain(constants.map(|word| vec![6, 1, 0, 1, 9, 0, 1, word])).collect()
}

/// Every end of digits up to the largest word, in each column. What no accepted rule or table has is refused;
/// any word is a value or a constant, which stands last here.
#[test]
fn larger_numbers() {
    let row = [1, 1, 0, 0, 1, 1];
    // A quantifier, not, and, and a comparison with a variable and with a constant.
    let rule = [5, 1, 0, 1, 1, 2, 0, 0, 2, 3, 4, 0, 7, 0, 0, 0, 9, 0, 1, 1];
    let tally = run("larger_numbers", 1, 6_000, |case| {
        for number in ends_of_digits(u32::MAX) {
            for (place, most) in MOST_OF_ROW.into_iter().enumerate() {
                let (row, is_value) = (with_number(&row, place, number), place + 1 == row.len());
                assert!(check_table(&row).number() != 0 || number <= most || is_value, "{row:?}");
                let output = case.random.bytes(60);
                calls::write_pool(case, &row, &output);
            }
            for place in 0..rule.len() {
                let (rule, is_constant) = (with_number(&rule, place, number), place + 1 == rule.len());
                let most = MOST_OF_ENTRY[place % RULE.columns];
                assert!(check_rule(&rule).number() != 0 || number <= most || is_constant, "{rule:?}");
                let output = case.random.bytes(80);
                calls::write_rule(case, &rule, &output);
            }
        }
    });
    tally.saw_each([0, 2, 3, 4, 7], 900);
    tally.saw_each([9, 11, 26], 200);
}

fn with_number(words: &[u32], place: usize, number: u32) -> Vec<u32> {
    let mut changed = words.to_vec();
    changed[place] = number;
    changed
}

/// The longest files, and rules with every child that a rule may have.
#[test]
fn largest_inputs() {
    let tally = run("largest_inputs_of_digits", 10, 1_000, |case| {
        let table = largest::longest_pool();
        for length in lengths(&mut case.random, POOL.text_of(&table).len()) {
            let output = case.random.bytes(length);
            calls::write_pool(case, &table, &output);
        }
        for rule in largest::rules().into_iter().chain([largest::longest_rule()]) {
            for length in lengths(&mut case.random, RULE.text_of(&rule).len()) {
                let output = case.random.bytes(length);
                calls::write_rule(case, &rule, &output);
            }
        }
    });
    tally.saw_each([0, 17], 400);
}

/// Words of every width up to the largest, 4,294,967,295, are read back in any column, as values of either sign
/// where they are values or constants, though no accepted rule or table has them all. The files of tests/files.rs hardly have words of six digits to eight.
#[test]
fn reading() {
    let tally = run("reading_of_digits", 10_000, 20_000, |case| {
        let rule = case.random.chance(50);
        let lines = case.random.between(1, 12);
        let file = file_of(&mut case.random, rule, lines, any_number);
        let words = lines * if rule { RULE.columns } else { POOL.columns };
        for file in [damaged_file(&mut case.random, &file), file] {
            let length = mostly_enough(&mut case.random, words + 3, words);
            let output = case.random.words(length);
            if rule {
                calls::read_rule(case, &file, &output);
            } else {
                calls::read_pool(case, &file, &output);
            }
        }
    });
    tally.saw_each([0], 9_000);
    tally.saw_each([17], 400);
    tally.saw_each([18, 19], 1_500);
}

/// The rows of a table that is walked through.
const ROWS: usize = 1_020;

/// Every value from -100,000 to 100,000, and the ends of digits beyond.
#[test]
fn values_one_after_the_other() {
    let mut values = ends_of_values();
    values.extend((0..=100_000).flat_map(|value: u32| [value, value.wrapping_neg()]));
    let values: Vec<u32> = values.into_iter().collect();
    let tally = run("values_one_after_the_other", 1, 380, |case| {
        for values in values.chunks(ROWS) {
            let root = |(at, &value)| Row { device: 1, at, up: 0, deep: 0, name: 1, value };
            let table: Vec<Row> = (1..).zip(values).map(root).collect();
            compare_with_formatting(case, &table);
        }
    });
    tally.saw_each([0, 17], 190);
}

/// Every device, at and name in tables of roots; every at, up and name in paths of rows, each under the one
/// before. The columns from device to name have every width; values are walked through above.
#[test]
fn names_one_after_the_other() {
    let names: Vec<u32> = (1..=MOST_NAME).collect();
    let mut written = Written::default();
    let tally = run("names_one_after_the_other", 1, 260, |case| {
        for names in names.chunks(ROWS) {
            let root = |&name: &u32| Row { device: name, at: name, up: 0, deep: 0, name, value: name };
            let roots = names.iter().map(root).collect();
            for table in [roots, path(names)] {
                compare_with_formatting(case, &table);
                written.count(&POOL.text_of(&words_of(&table)));
            }
        }
    });
    tally.saw_each([0, 17], 130);
    written.saw_each_width(&MOST_OF_ROW[..5], 9);
}

/// Its ats are these names, and the one before them, which is the first's up.
fn path(names: &[u32]) -> Vec<Row> {
    let (first, last) = (names[0], names[names.len() - 1]);
    let row = |(deep, at): (u32, u32)| {
        let up = if deep == 0 { 0 } else { at - 1 };
        Row { device: MOST_NAME, at, up, deep, name: at, value: MOST_VALUE - at }
    };
    (0..).zip(first.max(2) - 1..=last).map(row).collect()
}

/// Compares the file of an accepted table with what Rust's own formatting gives, where it just fits; and with
/// the checker's, where there is room behind it. One byte short is 17.
fn compare_with_formatting(case: &mut Case, table: &[Row]) {
    let line = |row: &Row| {
        let Row { device, at, up, deep, name, value } = row;
        let value = *value as i32;
        format!("{device} {at} {up} {deep} {name} {value}\n")
    };
    let text = POOL.first_line.to_string() + &table.iter().map(line).collect::<String>();
    let words = words_of(table);
    for length in [text.len() - 1, text.len() + 7] {
        let output = case.random.bytes(length);
        calls::write_pool(case, &words, &output);
    }
    let mut file = vec![0; text.len()];
    assert_eq!(ffi::write_pool(&words, &mut file), Answer::Done(text.len()));
    assert!(file == text.as_bytes(), "{}", String::from_utf8_lossy(&file));
}
