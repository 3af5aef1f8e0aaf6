//! The C entry over both files.

use super::files::{POOL, RULE};
use super::rule::accepted_rule;
use super::table::accepted_table;
use super::verdict::verdict;
use crate::answer::{Answer, Refusal};

pub fn check_files(rule_file: &[u8], pool_file: &[u8]) -> u32 {
    match accepted_files(rule_file, pool_file, usize::MAX) {
        Err(refusal) => 100 + refusal.number,
        Ok((rule, pool)) => (verdict(&rule, &pool) == Answer::Done(1)) as u32,
    }
}

/// The words of two accepted files: rule file, rule, pool file, pool.
pub fn accepted_files(
    rule_file: &[u8],
    pool_file: &[u8],
    most_bytes: usize,
) -> Result<(Vec<u32>, Vec<u32>), Refusal> {
    check_size(rule_file, most_bytes, 1)?;
    let rule = RULE.words_of(rule_file)?;
    accepted_rule(&rule)?;
    check_size(pool_file, most_bytes, 8)?;
    let pool = POOL.words_of(pool_file)?;
    accepted_table(&pool)?;
    Ok((rule, pool))
}

fn check_size(file: &[u8], most_bytes: usize, number: u32) -> Result<(), Refusal> {
    super::tests_of_line::test(number, file.len() > most_bytes)
}
