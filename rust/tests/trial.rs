//! Trying plans: steps that are done, steps that are refused, refusals before them, short outputs.
#![cfg(feature = "trial")]

use gabzeril_tests::answer::{Refusal, Trial};
use gabzeril_tests::checker::{
    check_set, check_table, Room, Tried, ADD, MOST_ROWS, REMOVE, ROW_WORDS, SET, STEP_WORDS,
};
use gabzeril_tests::compare::refused_step::{self, before, cut};
use gabzeril_tests::compare::steps::{self, note_plan, turned, unreached};
use gabzeril_tests::compare::{calls, run, Case, Tally};
use gabzeril_tests::ffi;
use gabzeril_tests::generate::*;
use gabzeril_tests::random::Random;

const LIMIT: PlanLimit = PlanLimit { rows: 40, steps: 24, cost: 4_000 };

/// What a step is refused with where the table is not full, in the order of the checks.
const OF_STEPS: [u32; 9] = [23, 24, 25, 9, 10, 11, 26, 12, 17];
/// What an added row is refused with, likewise.
const OF_ADDED: [u32; 6] = [9, 10, 11, 26, 12, 17];

const SET_AND_POOL: &str = "set and pool refused";
const SET_AND_ROOM: &str = "set refused and no room for the pool";
const POOL_AND_ROOM: &str = "pool refused and no room for it";
const FAR: &str = "a set refused past entry 2,048";

/// Compares the call, and notes what it met.
fn compare(case: &mut Case, plan: &Plan, room: Room) -> Result<Tried, Refusal> {
    let expected = calls::try_plan(case, plan, room);
    note_plan(case, plan, room, &expected);
    expected
}

fn saw_before_steps(tally: &Tally, numbers: impl IntoIterator<Item = u32>, least: u64) {
    numbers.into_iter().for_each(|number| tally.saw_noted(&format!("{number} before step 0"), least));
}

fn saw_at_steps(tally: &Tally, numbers: impl IntoIterator<Item = u32>, least: u64) {
    for number in numbers {
        tally.saw_noted(&format!("{number} at step 0"), least);
        tally.saw_noted(&format!("{number} at a later step"), least);
    }
}

/// For each two of these, steps that fail both checks.
fn saw_pairs(tally: &Tally, numbers: &[u32], least: u64) {
    for (place, &first) in numbers.iter().enumerate() {
        numbers[place + 1..].iter().for_each(|&second| tally.saw_noted(&before(first, second), least));
    }
}

#[test]
fn steps_that_are_done() {
    let limit = PlanLimit { rows: 120, ..LIMIT };
    let tally = run("steps_that_are_done", 30_000, 30_000, |case| {
        let plan = plan(&mut case.random, limit);
        compare(case, &plan, enough_room(&plan)).expect("no refusal");
        case.note_met([(other_trial(&plan), OTHER_TRIAL)]);
    });
    tally.saw_each([0], 30_000);
    tally.saw_noted(OTHER_TRIAL, 6_000);
    for (_, kind) in steps::KINDS {
        tally.saw_noted(&turned(kind), 2_000);
        tally.saw_noted(&unreached(kind), 10_000);
    }
    for what in [steps::OTHER_NAME, steps::OTHER_PARENT, steps::UNDER_UNREACHED, steps::SOME_REACH] {
        tally.saw_noted(what, 15_000);
    }
    for what in [steps::SOME_TURN, steps::DEEP, steps::DEEPEST, steps::ADDED_LAST, steps::ALL_DONE] {
        tally.saw_noted(what, 2_000);
    }
    for what in [steps::ADDED_FIRST, steps::ADDED_TO_NONE, steps::EMPTIED, steps::FREED, steps::ANOTHER_THERE]
    {
        tally.saw_noted(what, 500);
    }
    tally.saw_noted(steps::NEW_DEVICE, 200);
}

/// One fault and several, at any step; the steps before it are done.
#[test]
fn refused_steps() {
    let tally = run("refused_steps", 45_000, 45_000, |case| {
        let plan = plan(&mut case.random, LIMIT);
        let damaged = damaged_plan(&mut case.random, &plan);
        let room = any_room(&mut case.random, &damaged);
        let _ = compare(case, &damaged, room);
    });
    saw_at_steps(&tally, OF_STEPS, 250);
    saw_pairs(&tally, &OF_ADDED, 10);
    for first in [23, 24, 25] {
        tally.saw_noted(&before(first, 17), 40);
    }
    for second in [24, 25, 9, 10, 11, 26, 12] {
        tally.saw_noted(&before(23, second), 20);
    }
    for (_, kind) in steps::KINDS {
        (1..STEP_WORDS).for_each(|words| tally.saw_noted(&cut(kind, words), 50));
    }
    for what in [refused_step::ZERO, refused_step::GONE, refused_step::PARENT_BEHIND] {
        tally.saw_noted(what, 100);
    }
    tally.saw_noted(refused_step::PARENT_GONE, 50);
    tally.saw_noted(refused_step::EQUAL_WITHOUT_ROOM, 200);
    for what in [refused_step::ROOTS_BY_SET, refused_step::ROOTS_BY_ADD] {
        tally.saw_noted(what, 300);
    }
}

#[test]
fn steps_of_any_words() {
    let tally = run("steps_of_any_words", 20_000, 20_000, |case| {
        let random = &mut case.random;
        let vocabulary = Vocabulary { names: vec![1, 2], values: vec![u32::MAX, 0, 1, 2] };
        let rows = random.below(12);
        let shape = PoolShape { devices: 2, step: 1, ..PoolShape::with_rows(random, rows) };
        let pool = pool_of(random, &vocabulary, shape);
        let rules: Vec<Vec<u32>> =
            (0..random.between(1, 3)).map(|_| small_rule(random, &vocabulary)).collect();
        let plan = Plan { set: Set::of(&rules), pool, steps: any_steps(random) };
        let room = any_room(random, &plan);
        let _ = compare(case, &plan, room);
    });
    tally.saw_each([0], 1_000);
    tally.saw_each(OF_STEPS, 60);
}

fn small_rule(random: &mut Random, vocabulary: &Vocabulary) -> Vec<u32> {
    let shape = RuleShape { entries: random.between(2, 9), ..RuleShape::new(random) };
    rule_of(random, vocabulary, shape)
}

/// With 1,024 rows every added row is 8, whatever else is wrong with it.
#[test]
fn full_tables() {
    let limit = PlanLimit { rows: MOST_ROWS, steps: 4, cost: 4_000 };
    let tally = run("full_tables", 300, 300, |case| {
        let plan = plan_on_a_full_table(&mut case.random, limit);
        let plan = with_added_row(&mut case.random, &plan);
        let room = any_room(&mut case.random, &plan);
        let _ = compare(case, &plan, room);
    });
    saw_at_steps(&tally, [8], 25);
    OF_ADDED.iter().for_each(|&number| tally.saw_noted(&before(8, number), 7));
    tally.saw_each([0], 15);
}

/// Rows whose hashes in the library collide; half of the plans have a step that is refused.
#[test]
fn colliding_rows() {
    let limit = PlanLimit { rows: MOST_ROWS, steps: 8, cost: 4_000 };
    let tally = run("colliding_rows_tried", 800, 800, |case| {
        let mut plan = plan_on_colliding_rows(&mut case.random, limit);
        if case.random.chance(50) {
            plan = damaged_plan(&mut case.random, &plan);
        }
        let _ = compare(case, &plan, enough_room(&plan));
    });
    tally.saw_each([0], 300);
    tally.saw_each([23, 24, 9, 10, 11, 26, 12], 10);
}

/// The set, the pool, the room for it, in this order; no output is changed.
#[test]
fn refused_before_the_steps() {
    let tally = run("refused_before_the_steps", 25_000, 24_500, |case| {
        let random = &mut case.random;
        let mut plan = plan(random, LIMIT);
        if random.chance(30) {
            plan = damaged_plan(random, &plan);
        }
        if random.chance(45) {
            plan.set = damaged_set(random, &plan.set);
        }
        if random.chance(45) {
            plan.pool = damaged_table(random, &plan.pool);
        }
        let mut room = any_room(random, &plan);
        if random.chance(20) {
            room.words = random.below(plan.pool.len() + 1);
        }
        // A damage may leave all accepted, but far too long to evaluate.
        if set_cost(&plan.set, &plan.pool) <= 1_000 * LIMIT.cost {
            note_before(case, &plan, room);
            let _ = compare(case, &plan, room);
        }
    });
    saw_before_steps(&tally, [20], 2_500);
    saw_before_steps(&tally, RULE_FAULTS, 200);
    saw_before_steps(&tally, TABLE_FAULTS, 140);
    saw_before_steps(&tally, [17], 1_000);
    for what in [SET_AND_POOL, SET_AND_ROOM, POOL_AND_ROOM] {
        tally.saw_noted(what, 1_000);
    }
}

fn note_before(case: &mut Case, plan: &Plan, room: Room) {
    let set = check_set(&plan.set.rules, &plan.set.counts).number() != 0;
    let (pool, short) = (check_table(&plan.pool).number() != 0, room.words < plan.pool.len());
    case.note_met([
        (set && pool, SET_AND_POOL),
        (set && short, SET_AND_ROOM),
        (pool && short, POOL_AND_ROOM),
    ]);
}

/// For the pool, for a row more, for the verdicts of a step: all of a step is done or nothing.
#[test]
fn short_outputs() {
    let tally = run("short_outputs", 25_000, 25_000, |case| {
        let plan = plan(&mut case.random, LIMIT);
        let room = short_room(&mut case.random, &plan);
        let _ = compare(case, &plan, room);
    });
    tally.saw_each([0], 2_000);
    saw_before_steps(&tally, [17], 1_500);
    saw_at_steps(&tally, [17], 3_500);
    tally.saw_noted(refused_step::SHORT_TABLE, 1_500);
    tally.saw_noted(refused_step::SHORT_VERDICTS, 6_000);
    tally.saw_noted(refused_step::SHORT_BOTH, 500);
}

/// Rules start anywhere; places count from the first entry of the set.
#[test]
fn far_sets() {
    let limit = PlanLimit { rows: 24, steps: 6, cost: 4_000 };
    let tally = run("far_sets_tried", 400, 800, |case| {
        let mut plan = plan(&mut case.random, limit);
        plan.set = far_apart(&mut case.random, &plan.set);
        let room = any_room(&mut case.random, &plan);
        let _ = compare(case, &plan, room);
        damage_set(&mut case.random, &mut plan.set, SetFault::Rule);
        if let Err(refusal) = compare(case, &plan, room) {
            if refusal.place > 2_048 {
                case.note(FAR);
            }
        }
    });
    tally.saw_each([0], 150);
    tally.saw_noted(FAR, 50);
    tally.saw_noted(steps::SOME_TURN, 50);
}

/// No number of steps is too large, nor taken modulo 2^16.
#[test]
fn many_steps() {
    const MANY: u32 = 70_000;
    // Some root named 1 has the value 1; every one is at most 1.
    let set = Set::of(&[[6, 1, 0, 1, 7, 0, 1, 1], [5, 1, 0, 1, 9, 0, 1, 1]]);
    let pool = vec![1, 1, 0, 0, 1, 0, 2, 1, 0, 0, 2, 0];
    // The value changes with every step, and with every seventh a row goes or comes back.
    let step = |number: u32| match number % 14 {
        6 => [REMOVE, 2, 1, 0, 0, 0, 0],
        13 => [ADD, 2, 1, 0, 0, 2, 0],
        _ => [SET, 1, 1, 0, 0, 0, number % 3],
    };
    let plan = Plan { set, pool, steps: (0..MANY).flat_map(step).collect() };
    let mut refused = plan.clone();
    refused.steps.extend([ADD, 1, 2, 0, 0, 0, 1]);
    run("many_steps", 1, 2, |case| {
        for (plan, number) in [(&plan, None), (&refused, Some(9))] {
            let left = compare(case, plan, enough_room(plan)).expect("no refusal before step 0");
            assert_eq!((left.refused, left.steps), (number, MANY as usize));
        }
    });
}

/// What a refusal before step 0 and one of step 0 have in common, and what tells them apart.
#[test]
fn refusals_that_look_alike() {
    let (rule, good, bad) = ([6, 1, 0, 1, 7, 0, 1, 1], [1, 1, 0, 0, 1, 1], [1, 1, 0, 0, 0, 1]);
    let step = [&[ADD], &[1, 2, 0, 0, 0, 1][..]].concat();
    let attempt = |pool: &[u32], steps: &[u32]| {
        let (mut table, mut verdicts) = ([7; 2 * ROW_WORDS], [7; 2]);
        (ffi::try_plan(&rule, &[2], pool, steps, &mut table, &mut verdicts), table, verdicts)
    };
    let before = attempt(&bad, &step);
    assert_eq!(before, (Trial { number: 9, place: 0, steps: 0, rows: 0 }, [7; 12], [7; 2]));
    let at_step = attempt(&good, &step);
    assert_eq!(at_step.0, Trial { number: 9, place: 0, steps: 0, rows: 1 });
    assert_eq!((&at_step.1[..6], at_step.2), (&good[..], [7; 2]));
}
