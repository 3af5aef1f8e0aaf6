//! Tables whose depths are right or wrong, through every call that takes a table or a pool file.
#![cfg(all(feature = "lower", feature = "engine", feature = "parts", feature = "files_entry"))]

use std::collections::HashMap;

use gabzeril_tests::answer::Answer;
use gabzeril_tests::checker::{
    accepted_table, check_table, devices_of, part, rows_of, words_of, Row, MOST_NAME, MOST_ROWS, POOL,
    ROW_WORDS, RULE,
};
use gabzeril_tests::compare::{calls, run, Case, Tally};
use gabzeril_tests::generate::*;
use gabzeril_tests::largest;
use gabzeril_tests::random::Random;

const COST: u64 = 40_000;
/// The rows of most tables.
const FEW_ROWS: usize = 40;

const ROOT: &str = "the first wrong depth is a root's";
const UNDER_OTHERS: &str = "the first wrong depth is that of a row under others";
const LATER_DEVICE: &str = "the first wrong depth is not in the first device";
const LONGEST_PATH: &str = "a path of as many rows as may be, without fault";
const DAMAGED_PATH: &str = "a path of as many rows as may be, with faults";

/// A fault in a row before the first wrong depth, or in that row or one behind it.
const BESIDE: [(u32, &str, &str); 4] = [
    (9, "9 before a wrong depth", "9 not before a wrong depth"),
    (10, "10 before a wrong depth", "10 not before a wrong depth"),
    (11, "11 before a wrong depth", "11 not before a wrong depth"),
    (12, "12 before a wrong depth", "12 not before a wrong depth"),
];

/// Some root of the longest pool has a child of at most its own value.
const RULE_OF_THE_PATH: [u32; 12] = [6, 1, 0, MOST_NAME, 6, 2, 1, MOST_NAME, 9, 1, 0, 0];

/// Which fault is found, and where, is also told by the way in which the table was made.
#[test]
fn checks() {
    let tally = run("checks_of_depths", 60_000, 120_000, |case| {
        let random = &mut case.random;
        let vocabulary = Vocabulary::new(random);
        let (devices, rows) = (random.between(1, 4), random.below(FEW_ROWS));
        let accepted = deep_rows(random, &vocabulary, devices, rows);
        let table = damaged_depths(random, &accepted);
        note(case, &table);
        calls::check_table(case, &table.words);
        device_rows(case, &table.words);
    });
    tally.saw_each([26], 10_000);
    tally.saw_each([0, 8, 9, 10, 11, 12], 500);
    saw_the_notes(&tally, 400);
}

#[test]
fn every_call() {
    let tally = run("every_call_on_depths", 20_000, 200_000, |case| {
        let rows = case.random.below(FEW_ROWS);
        let (mut rule, accepted) = rule_and_deep_rows(&mut case.random, rows, COST);
        let table = damaged_depths(&mut case.random, &accepted);
        note(case, &table);
        if case.random.chance(5) {
            rule = damaged_rule(&mut case.random, &rule);
        }
        // A damage may leave the rule accepted, but far too long to evaluate.
        if verdict_cost(&rule, &table.words).max(reading_cost(&rule, &table.words)) <= 10 * COST {
            each_call(case, &rule, &table.words);
        }
    });
    tally.saw_each([0, 26], 30_000);
    tally.saw_each([8, 9, 10, 11, 12, 13, 14, 17, 18, 19], 300);
    tally.saw_both_values(10_000);
    saw_the_notes(&tally, 100);
}

/// One path of as many rows as a table may have, and other shapes about as long.
#[test]
fn long_tables() {
    let tally = run("long_tables_of_depths", 200, 2_000, |case| {
        let any = case.random.between(MOST_ROWS / 2, MOST_ROWS);
        let rows = case.random.pick(&[MOST_ROWS, MOST_ROWS, MOST_ROWS - 1, any]);
        let (rule, accepted) = match case.random.chance(50) {
            true => (RULE_OF_THE_PATH.to_vec(), largest::longest_pool()),
            false => rule_and_deep_rows(&mut case.random, rows, COST),
        };
        let table = damaged_depths(&mut case.random, &accepted);
        note(case, &table);
        if rows_of(&accepted).iter().any(|row| row.deep == MOST_ROWS as u32 - 1) {
            case.note(if table.faults.is_empty() { LONGEST_PATH } else { DAMAGED_PATH });
        }
        each_call(case, &rule, &table.words);
    });
    tally.saw_each([0, 26], 300);
    tally.saw_noted(LONGEST_PATH, 10);
    tally.saw_noted(DAMAGED_PATH, 50);
}

fn each_call(case: &mut Case, rule: &[u32], table: &[u32]) {
    depths_are_counted(rule, table);
    calls::check_table(case, table);
    device_rows(case, table);
    calls::verdict(case, rule, table);
    let rows = table.len() / ROW_WORDS;
    let length = mostly_enough(&mut case.random, rows, rows);
    let output = case.random.bytes(length);
    calls::marks(case, rule, table, &output);
    each_part(case, rule, table);
    each_file(case, rule, table);
}

/// Mostly of one of its devices, if the table is accepted; else 14 would hide the parts.
fn each_part(case: &mut Case, rule: &[u32], table: &[u32]) {
    let mut device = table;
    if accepted_table(table).is_ok_and(|rows| !rows.is_empty()) && case.random.chance(80) {
        device = case.random.pick(&devices_of(table));
    }
    for mode in 1..=3 {
        let mode = if case.random.chance(95) { mode } else { case.random.pick(&[0, 4, u32::MAX]) };
        let length = mostly_enough(&mut case.random, device.len(), words_sent(rule, device, mode));
        let output = case.random.words(length);
        calls::part(case, rule, device, mode, &output);
    }
}

/// Pool files are of six columns, whatever their depths; one in five has other damage.
fn each_file(case: &mut Case, rule: &[u32], table: &[u32]) {
    let (rule_file, mut pool_file) = (RULE.text_of(rule), POOL.text_of(table));
    let length = mostly_enough(&mut case.random, pool_file.len(), pool_file.len());
    let output = case.random.bytes(length);
    calls::write_pool(case, table, &output);
    if case.random.chance(20) {
        pool_file = damaged_file(&mut case.random, &pool_file);
    }
    let length = mostly_enough(&mut case.random, table.len() + ROW_WORDS, table.len());
    let output = case.random.words(length);
    calls::read_pool(case, &pool_file, &output);
    // A damage may leave the file accepted, but far too long to evaluate.
    if files_cost(&rule_file, &pool_file) <= 10 * COST {
        calls::check_files(case, &rule_file, &pool_file);
        let length = case.random.between(20, 80);
        let output = case.random.bytes(length);
        calls::report(case, &rule_file, &pool_file, &output);
    }
}

/// Mostly a device of the table.
fn device_rows(case: &mut Case, table: &[u32]) {
    let rows = rows_of(table);
    let known = !rows.is_empty() && case.random.chance(90);
    let device = if known { case.random.pick(&rows).device } else { word_of_any_class(&mut case.random) };
    calls::device_rows(case, table, device);
}

/// The rows of the second table keep their depths: each hangs under rows of its own device only.
#[test]
fn joining() {
    let tally = run("joining_of_depths", 30_000, 30_000, |case| {
        let (first, second) = two_tables(&mut case.random);
        let joined = first.len() + second.len();
        let length = mostly_enough(&mut case.random, joined + ROW_WORDS, joined).max(first.len());
        let room = case.random.words(length - first.len());
        calls::join(case, &[&first[..], &room].concat(), first.len(), &second);
    });
    tally.saw_each([0, 26], 3_000);
    tally.saw_each([8, 9, 10, 11, 12, 16, 17], 200);
}

/// The devices of one table on two sides, which fit mostly.
fn two_tables(random: &mut Random) -> (Vec<u32>, Vec<u32>) {
    let vocabulary = Vocabulary::new(random);
    let (devices, rows) = (random.between(2, 6), random.below(FEW_ROWS));
    let table = deep_rows(random, &vocabulary, devices, rows);
    let devices = devices_of(&table);
    let (first, second) = devices.split_at(random.below(devices.len() + 1));
    let (mut first, mut second) = (first.concat(), second.concat());
    if random.chance(10) {
        second = with_root_of(&first, &second);
    }
    if random.chance(10) {
        std::mem::swap(&mut first, &mut second);
    }
    if random.chance(15) {
        first = damaged_depths(random, &first).words;
    }
    if random.chance(25) {
        second = damaged_depths(random, &second).words;
    }
    (first, second)
}

/// The second table with the name and value of the first one's first row in its own, also a root.
fn with_root_of(first: &[u32], second: &[u32]) -> Vec<u32> {
    let mut rows = rows_of(second);
    if let (Some(root), Some(equal)) = (rows_of(first).first(), rows.first_mut()) {
        (equal.name, equal.value) = (root.name, root.value);
    }
    words_of(&rows)
}

/// In an accepted table deep is the number of rows that a row hangs under. Parts keep it, and what is above
/// each of their rows, so that they are accepted too.
fn depths_are_counted(rule: &[u32], table: &[u32]) {
    let Ok(rows) = accepted_table(table) else {
        return;
    };
    let known: HashMap<[u32; 2], Row> = rows.iter().map(|row| ([row.device, row.at], *row)).collect();
    let above = |row: &Row| known.get(&[row.device, row.up]).copied();
    for row in &rows {
        let hangs_under = std::iter::successors(above(row), above).count();
        assert_eq!(row.deep as usize, hangs_under, "{row:?} of {rows:?}");
    }
    for device in devices_of(table) {
        for mode in 1..=3 {
            let sent = sent(rule, device, mode);
            assert!(accepted_table(&sent).is_ok(), "mode {mode} of {device:?}");
            for row in rows_of(&sent) {
                assert_eq!(known.get(&[row.device, row.at]), Some(&row), "mode {mode} of {device:?}");
            }
        }
    }
}

/// The checker's part, none for a refused rule.
fn sent(rule: &[u32], device: &[u32], mode: u32) -> Vec<u32> {
    let mut sent = vec![0; device.len()];
    match part(rule, device, mode, &mut sent) {
        Answer::Done(rows) => sent[..rows * ROW_WORDS].to_vec(),
        _ => vec![],
    }
}

/// Notes where the first wrong depth is, and which faults stand beside it.
fn note(case: &mut Case, table: &KnownTable) {
    assert_eq!(check_table(&table.words), table.check(), "{table:?}");
    let Some(wrong) = table.place_of(26) else {
        return;
    };
    for (number, before, not_before) in BESIDE {
        if let Some(place) = table.place_of(number) {
            case.note(if place < wrong { before } else { not_before });
        }
    }
    if table.check().number() == 26 {
        let rows = rows_of(&table.words);
        case.note(if rows[wrong].is_root() { ROOT } else { UNDER_OTHERS });
        if rows[wrong].device != rows[0].device {
            case.note(LATER_DEVICE);
        }
    }
}

fn saw_the_notes(tally: &Tally, least: u64) {
    for what in [ROOT, UNDER_OTHERS, LATER_DEVICE] {
        tally.saw_noted(what, least);
    }
    for (_, before, not_before) in BESIDE {
        tally.saw_noted(before, least);
        tally.saw_noted(not_before, least);
    }
}
