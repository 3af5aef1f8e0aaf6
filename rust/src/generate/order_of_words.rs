//! Requests that the order of the words would answer otherwise than that of the values. With the highest bit of
//! every value and constant turned, values are in the order that the words had.

use super::answers::{marked, rows_sent, trial_verdicts, verdicts};
use super::plans::Plan;
use super::sets::Set;
use crate::checker::{rows_of, verdict, words_of, ENTRY_WORDS, LEAST_VALUE, STEP_WORDS};

/// What the tests note of such a request.
pub const OTHER_VERDICT: &str = "another verdict by the order of the words";
pub const OTHER_TRIAL: &str = "a plan with other verdicts by the order of the words";

/// Whether the verdict would be another. Rule and pool are accepted, here and below.
pub fn other_verdict(rule: &[u32], pool: &[u32]) -> bool {
    verdict(rule, pool) != verdict(&turned_rule(rule), &turned_table(pool))
}

/// Whether other rows would be marked.
pub fn other_marks(rule: &[u32], pool: &[u32]) -> bool {
    marked(rule, pool) != marked(&turned_rule(rule), &turned_table(pool))
}

/// Whether the full part would have other rows.
pub fn other_part(rule: &[u32], device: &[u32]) -> bool {
    let ats = |rule: &[u32], device: &[u32]| {
        rows_sent(&Set::of(&[rule]), device, 3).iter().map(|row| row.at).collect::<Vec<_>>()
    };
    ats(rule, device) != ats(&turned_rule(rule), &turned_table(device))
}

/// Whether the verdict of some rule would be another.
pub fn other_verdicts(set: &Set, pool: &[u32]) -> bool {
    verdicts(set, pool) != verdicts(&turned_set(set), &turned_table(pool))
}

/// Whether the verdict of some rule after some step would be another.
pub fn other_trial(plan: &Plan) -> bool {
    trial_verdicts(plan) != trial_verdicts(&turned_plan(plan))
}

fn turned_rule(rule: &[u32]) -> Vec<u32> {
    let mut rule = rule.to_vec();
    for words in rule.chunks_exact_mut(ENTRY_WORDS) {
        if let [7..=9, _, 1, constant] = words {
            *constant ^= LEAST_VALUE;
        }
    }
    rule
}

fn turned_table(table: &[u32]) -> Vec<u32> {
    let mut rows = rows_of(table);
    rows.iter_mut().for_each(|row| row.value ^= LEAST_VALUE);
    words_of(&rows)
}

fn turned_set(set: &Set) -> Set {
    Set { rules: turned_rule(&set.rules), counts: set.counts.clone() }
}

fn turned_plan(plan: &Plan) -> Plan {
    let mut steps = plan.steps.clone();
    for words in steps.chunks_exact_mut(STEP_WORDS) {
        words[STEP_WORDS - 1] ^= LEAST_VALUE;
    }
    Plan { set: turned_set(&plan.set), pool: turned_table(&plan.pool), steps }
}
