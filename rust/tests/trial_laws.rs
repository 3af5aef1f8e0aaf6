//! The laws between a trial, its parts and the calls on the tables that it leaves.
#![cfg(all(feature = "lower", feature = "parts", feature = "sets", feature = "trial"))]

use gabzeril_tests::answer::{Answer, Trial};
use gabzeril_tests::checker::{devices_of, ROW_WORDS, STEP_WORDS};
use gabzeril_tests::compare::{run, Case};
use gabzeril_tests::ffi;
use gabzeril_tests::generate::*;

const LIMIT: PlanLimit = PlanLimit { rows: 30, steps: 16, cost: 4_000 };

const TURNED: &str = "a state whose verdicts are not those of the state before";
const FEWER: &str = "parts of fewer rows than the state";
const NONE: &str = "parts without rows";
const BOTH_VERDICTS: &str = "a state with true and false rules";
const SEVERAL: &str = "a state of several devices";

/// What a call leaves.
#[derive(Debug, PartialEq)]
struct Left {
    answer: Trial,
    /// The working table.
    table: Vec<u32>,
    /// The bytes of the steps done.
    verdicts: Vec<u8>,
}

/// Tries steps on a pool, with room enough.
fn left(set: &Set, pool: &[u32], steps: &[u32]) -> Left {
    let count = steps.len().div_ceil(STEP_WORDS);
    let mut table = vec![7; pool.len() + count * ROW_WORDS];
    let mut verdicts = vec![7; count * set.counts.len()];
    let answer = ffi::try_plan(&set.rules, &set.counts, pool, steps, &mut table, &mut verdicts);
    table.truncate(answer.rows * ROW_WORDS);
    verdicts.truncate(answer.steps * set.counts.len());
    Left { answer, table, verdicts }
}

fn verdicts_on(set: &Set, pool: &[u32]) -> Vec<u8> {
    let mut verdicts = vec![7; set.counts.len()];
    let answer = ffi::set_verdicts(&set.rules, &set.counts, pool, &mut verdicts);
    assert_eq!(answer, Answer::Done(verdicts.len()));
    verdicts
}

/// The first steps alone leave the state behind them and their bytes, the last of which are the verdicts on
/// that state; the other steps on that state leave the rest.
#[test]
fn a_plan_is_its_first_steps_and_the_others() {
    let tally = run("first_steps_and_others", 10_000, 40_000, |case| {
        let mut plan = plan(&mut case.random, LIMIT);
        if case.random.chance(40) {
            plan = damaged_plan(&mut case.random, &plan);
        }
        let whole = left(&plan.set, &plan.pool, &plan.steps);
        for steps in 0..=whole.answer.steps {
            first_and_others(case, &plan, &whole, steps);
        }
    });
    tally.saw_each([0], 20_000);
    tally.saw_each([23, 24, 25, 9, 10, 11, 26, 12], 200);
}

fn first_and_others(case: &mut Case, plan: &Plan, whole: &Left, steps: usize) {
    let (set, rules) = (&plan.set, plan.set.counts.len());
    let (first_steps, other_steps) = plan.steps.split_at(steps * STEP_WORDS);
    let first = left(set, &plan.pool, first_steps);
    let (first_bytes, other_bytes) = whole.verdicts.split_at(steps * rules);
    let rows = first.table.len() / ROW_WORDS;
    let done = first.answer == Trial { number: 0, place: 0, steps, rows } && first.verdicts == first_bytes;
    let is_table = ffi::check_table(&first.table) == Answer::Done(rows);
    let last = first_bytes.len().checked_sub(rules).map(|start| &first_bytes[start..]);
    let of_state = last.is_none_or(|last| last == verdicts_on(set, &first.table));
    let others = left(set, &first.table, other_steps);
    let answer = Trial {
        place: whole.answer.place.saturating_sub(steps),
        steps: whole.answer.steps - steps,
        ..whole.answer
    };
    let expected = Left { answer, table: whole.table.clone(), verdicts: other_bytes.to_vec() };
    let same = done && is_table && of_state && others == expected;
    case.compared(same, whole.answer.answer(), || {
        format!("{plan:?} at {steps}: {whole:?}, first {first:?}, others {others:?}")
    });
}

/// The devices of any state send any parts: the verdicts on the joined parts are that state's bytes.
#[test]
fn parts_of_a_state_keep_its_verdicts() {
    let tally = run("parts_of_a_state", 12_000, 18_000, |case| {
        let plan = plan(&mut case.random, LIMIT);
        // Readings may take far longer than verdicts.
        if set_cost(&plan.set, &plan.pool) > 100 * LIMIT.cost {
            return;
        }
        for _ in 0..2 {
            let steps = case.random.below(plan.step_count() + 1);
            let state = left(&plan.set, &plan.pool, &plan.steps[..steps * STEP_WORDS]);
            parts_of_state(case, &plan.set, &state);
        }
    });
    tally.saw_noted(TURNED, 700);
    for what in [FEWER, BOTH_VERDICTS, SEVERAL] {
        tally.saw_noted(what, 5_000);
    }
    tally.saw_noted(NONE, 400);
}

fn parts_of_state(case: &mut Case, set: &Set, state: &Left) {
    let (bytes, rules) = (&state.verdicts, set.counts.len());
    let verdicts = match state.answer.steps {
        // There are no bytes of the pool.
        0 => verdicts_on(set, &state.table),
        steps => bytes[(steps - 1) * rules..].to_vec(),
    };
    let joined = joined_parts(case, set, &state.table);
    let found = verdicts_on(set, &joined);
    case.note_met([
        (bytes.len() > rules && bytes[bytes.len() - 2 * rules..][..rules] != verdicts, TURNED),
        (joined.len() < state.table.len(), FEWER),
        (joined.is_empty() && !state.table.is_empty(), NONE),
        (verdicts.contains(&0) && verdicts.contains(&1), BOTH_VERDICTS),
        (devices_of(&state.table).len() > 1, SEVERAL),
    ]);
    case.compared(found == verdicts, Answer::Done(state.answer.steps), || {
        format!("{set:?} {state:?}: {found:?} on {joined:?}")
    });
}

/// Each device sends all its rows, its branch part or its full part; one mode for all, or any for each.
fn joined_parts(case: &mut Case, set: &Set, table: &[u32]) -> Vec<u32> {
    let (mut pool, mut used) = (vec![7; table.len()], 0);
    let one = case.random.below(4) as u32;
    for device in devices_of(table) {
        let mode = if one == 0 { case.random.between(1, 3) as u32 } else { one };
        let mut part = vec![7; device.len()];
        let Answer::Done(rows) = ffi::set_part(&set.rules, &set.counts, device, mode, &mut part) else {
            panic!("no part of {device:?} for {set:?}");
        };
        let Answer::Done(words) = ffi::join(&mut pool, used, &part[..rows * ROW_WORDS]) else {
            panic!("a part of {device:?} for {set:?} does not join");
        };
        used = words;
    }
    pool.truncate(used);
    pool
}
