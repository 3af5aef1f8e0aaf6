//! Rules about as nested as may be, through every call that takes a rule.
#![cfg(all(feature = "lower", feature = "engine", feature = "parts", feature = "files_entry"))]

use gabzeril_tests::checker::{
    accepted_rule, accepted_table, check_rule, fewest_around, marks, MOST_NESTED, POOL, ROW_WORDS, RULE,
};
use gabzeril_tests::compare::{calls, run, Case, Tally};
use gabzeril_tests::generate::*;

const COST: u64 = 60_000;

const ACCEPTED: &str = "accepted with as many around one another as may be";
const ONE_MORE: &str = "refused with 6, one more around one another";
const OTHER_PLACE: &str = "refused with 6 at another place than a chain of quantifiers";
const BOTH_FAULTS: &str = "refused with 6, though a variable is not bound";
const PASSED_6: &str = "refused with 7 with as many around one another as may be";
const INNERMOST: &str = "marked by quantifiers with as many around them as may be alone";

/// The place of 6 is that of the first entry at fault, in any order of the entries.
#[test]
fn checks() {
    let tally = run("checks", 40_000, 40_000, |case| {
        let vocabulary = Vocabulary::new(&mut case.random);
        let mut rule = nested_rule(&mut case.random, &vocabulary);
        if case.random.chance(15) {
            rule.words = damaged_rule(&mut case.random, &rule.words);
        } else {
            note(case, &rule);
        }
        calls::check_rule(case, &rule.words);
    });
    tally.saw_each(0..=7, 300);
    saw_the_limit(&tally, 2_000);
}

/// On tables of a few rows. One request in five is damaged otherwise; one output in five is about as long as
/// its answer.
#[test]
fn every_call() {
    let tally = run("every_call", 30_000, 240_000, |case| {
        let (nested, table) = nested_rule_and_table(&mut case.random, COST);
        if case.random.chance(80) {
            note(case, &nested);
            note_innermost(case, &nested.words, &table);
            return each_call(case, &nested.words, &table);
        }
        let (rule, table) = damaged_together(&mut case.random, nested.words, table);
        // A damage may leave both accepted, but far too long to evaluate.
        if verdict_cost(&rule, &table).max(reading_cost(&rule, &table)) <= 10 * COST {
            each_call(case, &rule, &table);
        }
    });
    tally.saw_each([0, 14, 17], 100);
    tally.saw_each(RULE_FAULTS, 100);
    tally.saw_each(TABLE_FAULTS, 100);
    tally.saw_both_values(10_000);
    saw_the_limit(&tally, 1_000);
    tally.saw_noted(INNERMOST, 300);
}

fn each_call(case: &mut Case, rule: &[u32], table: &[u32]) {
    calls::check_rule(case, rule);
    calls::verdict(case, rule, table);
    let rows = table.len() / ROW_WORDS;
    let length = mostly_enough(&mut case.random, rows, rows);
    let output = case.random.bytes(length);
    calls::marks(case, rule, table, &output);
    for mode in 1..=3 {
        let length = mostly_enough(&mut case.random, table.len(), words_sent(rule, table, mode));
        let output = case.random.words(length);
        calls::part(case, rule, table, mode, &output);
    }
    let (rule_file, pool_file) = (RULE.text_of(rule), POOL.text_of(table));
    calls::check_files(case, &rule_file, &pool_file);
    let length = case.random.below(81);
    let output = case.random.bytes(length);
    calls::report(case, &rule_file, &pool_file, &output);
    let length = mostly_enough(&mut case.random, rule_file.len(), rule_file.len());
    let output = case.random.bytes(length);
    calls::write_rule(case, rule, &output);
}

/// Notes what the limit does to a rule without other damage.
fn note(case: &mut Case, rule: &NestedRule) {
    assert_eq!(check_rule(&rule.words), rule.check(), "{rule:?}");
    let at_limit = rule.deepest == MOST_NESTED;
    let notes = [
        (ACCEPTED, at_limit && rule.unbound.is_none()),
        (ONE_MORE, rule.deepest == MOST_NESTED + 1),
        (OTHER_PLACE, rule.too_nested.is_some_and(|place| place != MOST_NESTED)),
        (BOTH_FAULTS, rule.too_nested.is_some() && rule.unbound.is_some()),
        (PASSED_6, at_limit && rule.unbound.is_some()),
    ];
    for (what, seen) in notes {
        if seen {
            case.note(what);
        }
    }
}

/// Notes a marked row that no quantifier reaches with fewer around it: one of the innermost marks it.
fn note_innermost(case: &mut Case, rule: &[u32], table: &[u32]) {
    let (Ok(entries), Ok(rows)) = (accepted_rule(rule), accepted_table(table)) else {
        return;
    };
    let mut marked = vec![0; rows.len()];
    marks(rule, table, &mut marked);
    let around = fewest_around(&entries, &rows);
    if marked.iter().zip(around).any(|(&mark, around)| mark == 1 && around == Some(MOST_NESTED - 1)) {
        case.note(INNERMOST);
    }
}

fn saw_the_limit(tally: &Tally, least: u64) {
    for what in [ACCEPTED, ONE_MORE, OTHER_PLACE, BOTH_FAULTS, PASSED_6] {
        tally.saw_noted(what, least);
    }
}
