//! One request through every call that takes a rule, a table or their files.
#![cfg(all(feature = "lower", feature = "engine", feature = "parts", feature = "files_entry"))]

use super::{calls, Case};
use crate::checker::{check_table, devices_of, POOL, ROW_WORDS, RULE};
use crate::generate::{damaged_file, files_cost, mostly_enough, words_sent};

/// The checks, the verdict and the marks.
pub fn each_on_words(case: &mut Case, rule: &[u32], pool: &[u32]) {
    calls::check_rule(case, rule);
    calls::check_table(case, pool);
    calls::verdict(case, rule, pool);
    let rows = pool.len() / ROW_WORDS;
    let length = mostly_enough(&mut case.random, rows, rows);
    let output = case.random.bytes(length);
    calls::marks(case, rule, pool, &output);
}

/// Mostly one device, if the table is accepted; else 14 would hide the parts.
pub fn mostly_one_device<'a>(case: &mut Case, pool: &'a [u32]) -> &'a [u32] {
    if check_table(pool).number() == 0 && !pool.is_empty() && case.random.chance(90) {
        case.random.pick(&devices_of(pool))
    } else {
        pool
    }
}

pub fn each_part(case: &mut Case, rule: &[u32], device: &[u32]) {
    for mode in 1..=3 {
        let length = mostly_enough(&mut case.random, device.len(), words_sent(rule, device, mode));
        let output = case.random.words(length);
        calls::part(case, rule, device, mode, &output);
    }
}

/// Written, read and checked; one file in five is damaged before it is read.
pub fn each_file(case: &mut Case, rule: &[u32], pool: &[u32], most_cost: u64) {
    let (mut rule_file, mut pool_file) = (RULE.text_of(rule), POOL.text_of(pool));
    let length = mostly_enough(&mut case.random, rule_file.len(), rule_file.len());
    let output = case.random.bytes(length);
    calls::write_rule(case, rule, &output);
    let length = mostly_enough(&mut case.random, pool_file.len(), pool_file.len());
    let output = case.random.bytes(length);
    calls::write_pool(case, pool, &output);
    for file in [&mut rule_file, &mut pool_file] {
        if case.random.chance(20) {
            *file = damaged_file(&mut case.random, file);
        }
    }
    let length = mostly_enough(&mut case.random, rule.len() + 4, rule.len());
    let output = case.random.words(length);
    calls::read_rule(case, &rule_file, &output);
    let length = mostly_enough(&mut case.random, pool.len() + ROW_WORDS, pool.len());
    let output = case.random.words(length);
    calls::read_pool(case, &pool_file, &output);
    // A damage may leave both accepted, but far too long to evaluate.
    if files_cost(&rule_file, &pool_file) <= most_cost {
        calls::check_files(case, &rule_file, &pool_file);
        let length = case.random.between(20, 80);
        let output = case.random.bytes(length);
        calls::report(case, &rule_file, &pool_file, &output);
    }
}
