//! The rows that one device sends, for a rule or for several.

use super::device::check_one_device;
use super::files::put;
use super::reach::reached_rows;
use super::spare::spare_rows;
use super::table::{parent_of, words_of, Row, ROW_WORDS};
use super::tests_of_line::test;
use super::verdict::accepted;
use super::Entry;
use crate::answer::{Answer, Refusal};

pub fn part(rule: &[u32], table: &[u32], mode: u32, part: &mut [u32]) -> Answer {
    put(part_of(rule, table, mode), part).map(|words| words / ROW_WORDS).into()
}

/// The words of the part.
pub fn part_of(rule: &[u32], table: &[u32], mode: u32) -> Result<Vec<u32>, Refusal> {
    let (entries, rows) = accepted(rule, table)?;
    part_of_rules(&[entries], &rows, mode)
}

/// The same for several rules, all of them accepted.
pub fn part_of_rules(rules: &[Vec<Entry>], rows: &[Row], mode: u32) -> Result<Vec<u32>, Refusal> {
    test(13, !(1..=3).contains(&mode))?;
    check_one_device(rows)?;
    let sent = match mode {
        1 => vec![true; rows.len()],
        2 => with_ancestors(rows, &for_any(rules, rows, reached_rows)),
        _ => with_ancestors(rows, &for_any(rules, rows, kept_rows)),
    };
    let sent: Vec<Row> = rows.iter().zip(sent).filter(|(_, sent)| *sent).map(|(row, _)| *row).collect();
    Ok(words_of(&sent))
}

fn kept_rows(entries: &[Entry], rows: &[Row]) -> Vec<bool> {
    spare_rows(entries, rows).into_iter().map(|spare| !spare).collect()
}

/// Whether each row passes for any of the rules.
fn for_any(rules: &[Vec<Entry>], rows: &[Row], pass: fn(&[Entry], &[Row]) -> Vec<bool>) -> Vec<bool> {
    let passes: Vec<Vec<bool>> = rules.iter().map(|entries| pass(entries, rows)).collect();
    (0..rows.len()).map(|row| passes.iter().any(|of_rule| of_rule[row])).collect()
}

/// Whether each row passes with all its ancestors.
fn with_ancestors(rows: &[Row], passes: &[bool]) -> Vec<bool> {
    let mut all_pass: Vec<bool> = vec![];
    for (row, &passes) in passes.iter().enumerate() {
        // A parent stands before its children.
        all_pass.push(passes && parent_of(rows, row).is_none_or(|parent| all_pass[parent]));
    }
    all_pass
}
