//! What the generators of plans promise.

use super::*;
use crate::answer::Trial;
use crate::checker::{tried, Room, Tried, MOST_ROWS, STEP_WORDS};
use crate::random::Random;

const LIMIT: PlanLimit = PlanLimit { rows: 30, steps: 20, cost: 4_000 };

fn tried_in(plan: &Plan, room: Room) -> Tried {
    tried(&plan.set.rules, &plan.set.counts, &plan.pool, &plan.steps, room).expect("no refusal before step 0")
}

fn all_steps_are_done(seed: u64, plan: &Plan) {
    let left = tried_in(plan, enough_room(plan));
    let (steps, rows) = (plan.step_count(), left.rows.len());
    assert_eq!(left.answer(), Trial { number: 0, place: 0, steps, rows }, "seed {seed}: {plan:?}");
    assert_eq!(left.rows, plan.rows_after(steps), "seed {seed}: {plan:?}");
}

#[test]
fn plans_can_be_done() {
    let (mut long, mut none) = (0, 0);
    for seed in 0..3_000 {
        let plan = plan(&mut Random::new(seed), LIMIT);
        all_steps_are_done(seed, &plan);
        long += (plan.step_count() >= LIMIT.steps / 2) as u32;
        none += plan.steps.is_empty() as u32;
    }
    assert!(long >= 300 && none >= 75, "{long} long ones, {none} without steps");
    for seed in 0..100 {
        all_steps_are_done(seed, &plan_on_colliding_rows(&mut Random::new(seed), LIMIT));
    }
    let limit = PlanLimit { steps: 3, ..LIMIT };
    for seed in 0..10 {
        let plan = plan_on_a_full_table(&mut Random::new(seed), limit);
        assert!(plan.rows_after(0).len() + 2 >= MOST_ROWS, "seed {seed}");
        all_steps_are_done(seed, &plan);
    }
}

/// A fault put in alone is mostly the one that is found, at its step; some need rows that are not in every
/// table.
#[test]
fn faults_of_steps_are_found_alone() {
    for (fault, number) in STEP_FAULTS {
        let mut found = 0;
        for seed in 0..1_000 {
            let random = &mut Random::new(seed);
            let plan = plan(random, LIMIT);
            let place = random.below(plan.step_count() + 1);
            let damaged = with_faulty_step(random, &plan, place, &[fault]);
            let answer = tried_in(&damaged, enough_room(&damaged)).answer();
            found += (answer.number == number && answer.place == place) as u32;
        }
        assert!(found >= 400, "{fault:?} was found {found} times");
    }
}

/// Without a fault the step that is put in is mostly done.
#[test]
fn a_step_without_fault_is_done() {
    let done = |seed: &u64| {
        let random = &mut Random::new(*seed);
        let plan = plan(random, LIMIT);
        let with_step = with_faulty_step(random, &plan, 0, &[]);
        tried_in(&with_step, enough_room(&with_step)).steps > 0
    };
    let found = (0..1_000).filter(done).count();
    assert!(found >= 900, "{found} of 1,000");
}

/// Both outputs are too short for the pool, for the first step and for a later one.
#[test]
fn rooms_are_short_everywhere() {
    let mut seen = [0; 4];
    for seed in 0..3_000 {
        let random = &mut Random::new(seed);
        let plan = plan(random, LIMIT);
        let room = short_room(random, &plan);
        let stage = match tried(&plan.set.rules, &plan.set.counts, &plan.pool, &plan.steps, room) {
            Err(_) => 0,
            Ok(left) if left.refused.is_none() => 3,
            Ok(left) => 1 + (left.steps > 0) as usize,
        };
        seen[stage] += 1;
    }
    assert!(seen.iter().all(|&times| times >= 200), "{seen:?}");
}

#[test]
fn cut_plans_lack_words() {
    let lacks = |seed: &u64| {
        let random = &mut Random::new(*seed);
        let plan = plan(random, LIMIT);
        !damaged_plan(random, &plan).steps.len().is_multiple_of(STEP_WORDS)
    };
    let found = (0..1_000).filter(lacks).count();
    assert!(found >= 70, "{found} of 1,000");
}
