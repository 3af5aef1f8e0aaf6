//! What the checker answers to accepted requests, for a comparison with what another reading would give.

use super::plans::Plan;
use super::rooms::enough_room;
use super::sets::Set;
use crate::answer::Answer;
use crate::checker::{marks, rows_of, set_part, set_verdicts, tried, Row, ROW_WORDS};

/// A byte for each row.
pub fn marked(rule: &[u32], pool: &[u32]) -> Vec<u8> {
    let mut bytes = vec![0; pool.len() / ROW_WORDS];
    marks(rule, pool, &mut bytes);
    bytes
}

/// The rows of a part.
pub fn rows_sent(set: &Set, device: &[u32], mode: u32) -> Vec<Row> {
    let mut words = vec![0; device.len()];
    let Answer::Done(rows) = set_part(&set.rules, &set.counts, device, mode, &mut words) else {
        panic!("a refused part of {device:?} for {set:?}");
    };
    rows_of(&words[..rows * ROW_WORDS])
}

/// A byte for each rule.
pub fn verdicts(set: &Set, pool: &[u32]) -> Vec<u8> {
    let mut bytes = vec![0; set.counts.len()];
    set_verdicts(&set.rules, &set.counts, pool, &mut bytes);
    bytes
}

/// A byte for each rule after each step.
pub fn trial_verdicts(plan: &Plan) -> Vec<u8> {
    let tried = tried(&plan.set.rules, &plan.set.counts, &plan.pool, &plan.steps, enough_room(plan));
    tried.expect("no refusal before step 0").verdicts
}
