//! Reading and writing files.
#![cfg(feature = "lower")]

use gabzeril_tests::checker::{POOL, RULE};
use gabzeril_tests::compare::{calls, run, Case};
use gabzeril_tests::generate::*;
use gabzeril_tests::largest;

#[test]
fn reading() {
    let tally = run("reading", 19_000, 60_000, |case| {
        let rule = case.random.chance(50);
        let file = file(case, rule);
        // The words that the file has if all its lines are well formed.
        let columns = if rule { RULE.columns } else { POOL.columns };
        let words = file.iter().filter(|&&byte| byte == b'\n').count().saturating_sub(1) * columns;
        for length in some_lengths_around(&mut case.random, words) {
            let output = case.random.words(length);
            if rule {
                calls::read_rule(case, &file, &output);
            } else {
                calls::read_pool(case, &file, &output);
            }
        }
    });
    tally.saw_each([0, 17, 18, 19], 3_000);
}

/// A file of accepted words, of any words, or a damaged one.
fn file(case: &mut Case, rule: bool) -> Vec<u8> {
    let random = &mut case.random;
    let vocabulary = Vocabulary::new(random);
    let well_formed = match random.below(4) {
        0 => {
            let lines = random.below(12);
            file_of_words(random, rule, lines)
        }
        1 => file_of_words(random, rule, 0),
        _ if rule => RULE.text_of(&gabzeril_tests::generate::rule(random, &vocabulary)),
        _ => POOL.text_of(&pool(random, &vocabulary)),
    };
    if random.chance(30) {
        well_formed
    } else {
        damaged_file(random, &well_formed)
    }
}

#[test]
fn writing_rules() {
    let tally = run("writing_rules", 7_000, 30_000, |case| {
        let vocabulary = Vocabulary::new(&mut case.random);
        let accepted = rule(&mut case.random, &vocabulary);
        let bytes = RULE.text_of(&accepted).len();
        for length in lengths_around(bytes) {
            let output = case.random.bytes(length);
            calls::write_rule(case, &accepted, &output);
        }
        let damaged = damaged_rule(&mut case.random, &accepted);
        let output = case.random.bytes(bytes + 20);
        calls::write_rule(case, &damaged, &output);
    });
    tally.saw_each([0, 1, 2, 3, 4, 5, 6, 7, 17], 100);
}

#[test]
fn writing_pools() {
    let tally = run("writing_pools", 6_000, 30_000, |case| {
        let vocabulary = Vocabulary::new(&mut case.random);
        let accepted = pool(&mut case.random, &vocabulary);
        let bytes = POOL.text_of(&accepted).len();
        for length in lengths_around(bytes) {
            let output = case.random.bytes(length);
            calls::write_pool(case, &accepted, &output);
        }
        let damaged = damaged_table(&mut case.random, &accepted);
        let output = case.random.bytes(bytes + 20);
        calls::write_pool(case, &damaged, &output);
    });
    tally.saw_each([0, 17], 100);
    tally.saw_each(TABLE_FAULTS, 100);
}

/// What was written is read back; a file of more lines than a table may have is read as well.
#[test]
fn long_files() {
    run("long_files", 3, 40, |case| {
        let (rule, table) = (largest::longest_rule(), largest::longest_pool());
        let (rule_file, pool_file) = (RULE.text_of(&rule), POOL.text_of(&table));
        for beyond in [0, 1, 10] {
            let output = case.random.bytes(rule_file.len() - 1 + beyond);
            calls::write_rule(case, &rule, &output);
            let output = case.random.bytes(pool_file.len() - 1 + beyond);
            calls::write_pool(case, &table, &output);
        }
        let (output, other) = (case.random.words(rule.len()), case.random.words(table.len()));
        calls::read_rule(case, &rule_file, &output);
        calls::read_pool(case, &pool_file, &other);
        for lines in [129, 1_025, 4_000] {
            for (rule, columns) in [(true, RULE.columns), (false, POOL.columns)] {
                let file = file_of_words(&mut case.random, rule, lines);
                let output = case.random.words(lines * columns + 3);
                if rule {
                    calls::read_rule(case, &file, &output);
                } else {
                    calls::read_pool(case, &file, &output);
                }
            }
        }
    });
}
