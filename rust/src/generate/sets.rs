//! Sets of accepted rules, with the pools and devices that they speak of.

use super::cost::{reading_cost, verdict_cost};
use super::far_sets::far_apart;
use super::pools::{pool_of, PoolShape};
use super::rules::{rule_of, RuleShape};
use super::together::{device_of_roots, rule_over_roots, with_empty_devices, Together};
use super::vocabulary::Vocabulary;
use crate::checker::{devices_of, rules_of, ENTRY_WORDS, MOST_ENTRIES, MOST_RULES, ROW_WORDS};
use crate::random::Random;

/// Rules laid end to end, and the number of entries of each.
#[derive(Clone, Debug)]
pub struct Set {
    pub rules: Vec<u32>,
    pub counts: Vec<u32>,
}

impl Set {
    /// Rules of whole entries.
    pub fn of<R: AsRef<[u32]>>(rules: &[R]) -> Set {
        let rules: Vec<&[u32]> = rules.iter().map(R::as_ref).collect();
        let counts = rules.iter().map(|rule| (rule.len() / ENTRY_WORDS) as u32).collect();
        Set { rules: rules.concat(), counts }
    }

    /// The words of each rule. The counts add up.
    pub fn each(&self) -> Vec<&[u32]> {
        rules_of(&self.rules, &self.counts)
    }
}

/// From so many rules on, all are small.
const MANY_RULES: usize = 7;

/// One rule, as many as may be, or any number; mostly few.
fn rule_count(random: &mut Random) -> usize {
    match random.below(20) {
        0..=1 => 1,
        2 => MOST_RULES,
        3..=5 => random.between(MANY_RULES, MOST_RULES),
        _ => random.between(2, MANY_RULES - 1),
    }
}

/// An accepted set of any rules; at times far apart or as long as may be.
pub fn set(random: &mut Random, vocabulary: &Vocabulary) -> Set {
    if random.chance(92) {
        let set = set_within(random, vocabulary, |_, _| true);
        return if random.chance(8) { far_apart(random, &set) } else { set };
    }
    let entries = MOST_ENTRIES - random.pick(&[0, 0, 1, 30]);
    let long = |random: &mut Random| {
        let shape = RuleShape { entries, ..RuleShape::new(random) };
        rule_of(random, vocabulary, shape)
    };
    let count = random.pick(&[2, 9, MOST_RULES - 1, MOST_RULES]);
    Set::of(&(0..count).map(|_| long(random)).collect::<Vec<_>>())
}

/// A set of rules each of which is permitted, given the number of rules.
pub fn set_within(
    random: &mut Random,
    vocabulary: &Vocabulary,
    permitted: impl Fn(&[u32], usize) -> bool,
) -> Set {
    let count = rule_count(random);
    let all_small = count >= MANY_RULES || random.chance(40);
    let mut rules = vec![];
    while rules.len() < count {
        let mut shape = RuleShape::new(random);
        if all_small {
            shape.entries = random.between(2, 7);
        }
        let rule = rule_of(random, vocabulary, shape);
        if permitted(&rule, count) {
            rules.push(rule);
        }
    }
    Set::of(&rules)
}

/// Whether a rule of a set takes its share of this work. A rule of two entries always does.
pub fn is_share(work: u64, cost: u64, count: usize, rows: usize) -> bool {
    work <= cost / count as u64 + 4 * rows as u64
}

fn row_count(table: &[u32]) -> usize {
    table.len() / ROW_WORDS
}

/// An accepted set and an accepted pool. The cost is that of all rules.
pub fn set_and_pool(random: &mut Random, limit: Together) -> (Set, Vec<u32>) {
    let vocabulary = Vocabulary::new(random);
    let pool = pool_within(random, &vocabulary, limit);
    let permitted =
        |rule: &[u32], count: usize| is_share(verdict_cost(rule, &pool), limit.cost, count, row_count(&pool));
    (set_within(random, &vocabulary, permitted), pool)
}

fn pool_within(random: &mut Random, vocabulary: &Vocabulary, limit: Together) -> Vec<u32> {
    let mut shape = PoolShape::new(random);
    shape.rows = shape.rows.min(limit.rows);
    shape.devices = shape.devices.min(limit.rows.max(1));
    pool_of(random, vocabulary, shape)
}

/// An accepted set, and the tables of devices whose rows together are accepted; some have no rows.
pub fn set_and_devices(random: &mut Random, limit: Together) -> (Set, Vec<Vec<u32>>) {
    let vocabulary = Vocabulary::new(random);
    let pool = pool_within(random, &vocabulary, limit);
    let devices = devices_of(&pool);
    let permitted = |rule: &[u32], count: usize| {
        let readings = devices.iter().map(|device| reading_cost(rule, device));
        let work = readings.fold(verdict_cost(rule, &pool), u64::saturating_add);
        is_share(work, limit.cost, count, row_count(&pool))
    };
    let set = set_within(random, &vocabulary, permitted);
    (set, with_empty_devices(random, &devices))
}

/// A set of two to six rules in which quantifiers over roots stand around and beside one another, and one
/// device with roots of their names.
pub fn set_and_roots(random: &mut Random, cost: u64) -> (Set, Vec<u32>) {
    let names = random.between(2, 3) as u32;
    let vocabulary = Vocabulary { names: (1..=names).collect(), ..Vocabulary::new(random) };
    let (table, count) = (device_of_roots(random, &vocabulary), random.between(2, MANY_RULES - 1));
    let mut rules = vec![];
    while rules.len() < count {
        let rule = rule_over_roots(random, &vocabulary);
        if is_share(reading_cost(&rule, &table), cost, count, row_count(&table)) {
            rules.push(rule);
        }
    }
    (Set::of(&rules), table)
}

/// A set and the devices of a pool, or one device of roots alone. There is a device, at times without rows.
pub fn set_and_devices_or_roots(random: &mut Random, limit: Together) -> (Set, Vec<Vec<u32>>) {
    if random.chance(50) {
        let (set, device) = set_and_roots(random, limit.cost);
        return (set, vec![device]);
    }
    let (set, mut devices) = set_and_devices(random, limit);
    if devices.is_empty() {
        devices.push(vec![]);
    }
    (set, devices)
}
