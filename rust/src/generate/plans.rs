//! Plans: a set, a pool, and steps that can be done on it.

use std::cell::Cell;

use super::chains::chains;
use super::collisions::colliding_rows;
use super::cost::verdict_cost_on;
use super::nested::nested_rule_along;
use super::pools::{pool_of, PoolShape};
use super::sets::{is_share, set_within, Set};
use super::steps::Steps;
use super::vocabulary::Vocabulary;
use crate::checker::{
    accepted_rule, rows_after, rows_of, verdicts_on, Row, MOST_NESTED, MOST_ROWS, STEP_WORDS,
};
use crate::random::Random;

/// What is tried.
#[derive(Clone, Debug)]
pub struct Plan {
    pub set: Set,
    pub pool: Vec<u32>,
    pub steps: Vec<u32>,
}

#[derive(Clone, Copy, Debug)]
pub struct PlanLimit {
    /// The most rows of the pool.
    pub rows: usize,
    /// The most steps.
    pub steps: usize,
    /// The most work that the verdicts after a step may take.
    pub cost: u64,
}

impl Plan {
    /// The whole steps.
    pub fn step_count(&self) -> usize {
        self.steps.len() / STEP_WORDS
    }

    /// The table after so many steps, of which none is refused.
    pub fn rows_after(&self, steps: usize) -> Vec<Row> {
        let steps = self.steps.chunks(STEP_WORDS).take(steps);
        steps
            .fold(rows_of(&self.pool), |rows, step| rows_after(&rows, step).expect("a step that can be done"))
    }
}

/// A plan of which no step is refused.
pub fn plan(random: &mut Random, limit: PlanLimit) -> Plan {
    if random.chance(20) {
        return plan_along_chains(random, limit);
    }
    let mut shape = PoolShape::new(random);
    shape.rows = shape.rows.min(limit.rows);
    plan_of(random, shape, limit)
}

/// The same on a pool of 1,022 to 1,024 rows.
pub fn plan_on_a_full_table(random: &mut Random, limit: PlanLimit) -> Plan {
    let rows = MOST_ROWS - random.pick(&[0, 0, 1, 2]);
    let shape = PoolShape::with_rows(random, rows);
    plan_of(random, shape, limit)
}

/// The same on rows whose hashes in the library collide.
pub fn plan_on_colliding_rows(random: &mut Random, limit: PlanLimit) -> Plan {
    let pool = colliding_rows(random);
    let rows = rows_of(&pool);
    let some = |word: fn(&Row) -> u32| rows.iter().step_by(1 + rows.len() / 4).map(word).collect();
    let vocabulary = Vocabulary { names: some(|row| row.name), values: some(|row| row.value) };
    plan_on(random, &vocabulary, pool, limit)
}

fn plan_of(random: &mut Random, mut shape: PoolShape, limit: PlanLimit) -> Plan {
    shape.devices = shape.devices.min(shape.rows.max(1));
    // Room between the rows for others.
    shape.step = random.pick(&[1, 2, 3, 30]);
    if random.chance(25) {
        (shape.roots, shape.chained) = (random.pick(&[0, 10]), 95);
    }
    let vocabulary = Vocabulary::new(random);
    let pool = pool_of(random, &vocabulary, shape);
    plan_on(random, &vocabulary, pool, limit)
}

fn plan_on(random: &mut Random, vocabulary: &Vocabulary, pool: Vec<u32>, limit: PlanLimit) -> Plan {
    let (steps, states) = steps_on(random, vocabulary, false, &pool, limit);
    let choice = Choice::new(&states, limit.cost);
    let set = set_within(random, vocabulary, |rule, count| choice.permits(rule, count));
    Plan { set, pool, steps }
}

/// Of the rules that do not take long, mostly those whose verdict turns between the states of a plan.
struct Choice<'a> {
    states: &'a [Vec<Row>],
    /// The state with the most rows.
    largest: &'a [Row],
    cost: u64,
    /// Rules looked at.
    tried: Cell<usize>,
}

impl Choice<'_> {
    fn new(states: &[Vec<Row>], cost: u64) -> Choice<'_> {
        let largest = states.iter().max_by_key(|rows| rows.len()).expect("a state");
        Choice { states, largest, cost, tried: Cell::new(0) }
    }

    fn permits(&self, rule: &[u32], count: usize) -> bool {
        if !is_share(verdict_cost_on(rule, self.largest), self.cost, count, self.largest.len()) {
            return false;
        }
        self.tried.set(self.tried.get() + 1);
        // Every fourth may have one verdict throughout.
        self.tried.get().is_multiple_of(4) || self.turns(rule)
    }

    fn turns(&self, rule: &[u32]) -> bool {
        let set = [accepted_rule(rule).expect("an accepted rule")];
        let mut verdicts = self.states.iter().map(|rows| verdicts_on(&set, rows));
        let first = verdicts.next();
        verdicts.any(|verdict| Some(verdict) != first)
    }
}

/// The words of steps, and the tables before and after them.
fn steps_on(
    random: &mut Random,
    vocabulary: &Vocabulary,
    by_depth: bool,
    pool: &[u32],
    limit: PlanLimit,
) -> (Vec<u32>, Vec<Vec<Row>>) {
    let count = match random.below(20) {
        0 => 0,
        1..=3 => random.between(limit.steps / 2, limit.steps),
        _ => random.between(1, 6).min(limit.steps),
    };
    let mut steps = Steps::new(random, vocabulary, by_depth, pool);
    (0..count).for_each(|_| steps.next());
    (steps.words, steps.states)
}

/// Rules as nested as may be that follow chains of rows: steps at each depth meet some quantifier.
fn plan_along_chains(random: &mut Random, limit: PlanLimit) -> Plan {
    let names = (1..=MOST_NESTED as u32 + 1).collect();
    let vocabulary = Vocabulary { names, ..Vocabulary::new(random) };
    let (length, beside) = (MOST_NESTED + random.below(2), random.below(limit.rows.min(8)));
    let pool = chains(random, &vocabulary, length, beside);
    let (steps, states) = steps_on(random, &vocabulary, true, &pool, limit);
    let (mut rules, count) = (vec![], random.between(1, 4));
    let choice = Choice::new(&states, limit.cost);
    while rules.len() < count {
        let rule = nested_rule_along(random, &vocabulary, 95);
        if rule.check().number() == 0 && choice.permits(&rule.words, count) {
            rules.push(rule.words);
        }
    }
    Plan { set: Set::of(&rules), pool, steps }
}
