//! A rule and a pool that use the same names and values, and do not take long.

use super::any_name::{has_any_name, Narrow};
use super::chains::chains;
use super::cost::{reading_cost, verdict_cost};
use super::damaged_rule::damaged_rule;
use super::damaged_table::damaged_table;
use super::nested::{nested_rule, nested_rule_along, NestedRule};
use super::order_of_words::other_verdict;
use super::pools::{pool_of, PoolShape};
use super::rules::{rule_of, some_any, RuleShape, Sides};
use super::vocabulary::Vocabulary;
use crate::checker::{devices_of, rows_of, MOST_NESTED};
use crate::random::Random;

/// How often a rule is drawn that another reading may leave as it is.
const ATTEMPTS: usize = 200;

/// The words of a rule and of a table.
type RuleAndTable = (Vec<u32>, Vec<u32>);

#[derive(Clone, Copy, Debug)]
pub struct Together {
    /// The most rows of the pool.
    pub rows: usize,
    /// The most work that the verdict or the reading of all devices may take.
    pub cost: u64,
}

/// An accepted rule and an accepted pool.
pub fn rule_and_pool(random: &mut Random, limit: Together) -> (Vec<u32>, Vec<u32>) {
    rule_and_pool_of(random, limit, Vocabulary::new, RuleShape::new)
}

/// The same with values around zero and at both ends. By the order of the words, most of the rules would have
/// another verdict.
pub fn rule_and_signs(random: &mut Random, limit: Together) -> (Vec<u32>, Vec<u32>) {
    let any = random.chance(30);
    loop {
        let (rule, pool) = rule_and_pool_of(random, limit, Vocabulary::of_edges, RuleShape::new);
        if any || other_verdict(&rule, &pool) {
            return (rule, pool);
        }
    }
}

/// The same with quantifiers over any name, in nearly all rules. If their name took no rows, or only for some of
/// them, most of the rules would have another verdict.
pub fn rule_and_any_names(random: &mut Random, limit: Together) -> (Vec<u32>, Vec<u32>) {
    let (choice, narrow) = (random.below(20), random.pick(&Narrow::OF_RULES));
    for attempt in 0.. {
        let (rule, pool) = rule_and_pool_of(random, limit, Vocabulary::of_names, RuleShape::of_any_names);
        let is_chosen = match choice {
            0 => true,
            1..=7 => has_any_name(&rule),
            _ => narrow.other_verdict(&rule, &pool),
        };
        // None differs if the checker itself has that reading: then a comparison has to tell.
        if is_chosen || attempt == ATTEMPTS {
            return (rule, pool);
        }
    }
    unreachable!("one of the attempts is the last")
}

fn rule_and_pool_of(
    random: &mut Random,
    limit: Together,
    vocabulary: fn(&mut Random) -> Vocabulary,
    rule_shape: fn(&mut Random) -> RuleShape,
) -> (Vec<u32>, Vec<u32>) {
    loop {
        let vocabulary = vocabulary(random);
        let mut shape = PoolShape::new(random);
        shape.rows = shape.rows.min(limit.rows);
        shape.devices = shape.devices.min(limit.rows.max(1));
        let rule_shape = rule_shape(random);
        let rule = rule_of(random, &vocabulary, rule_shape);
        // A pool that takes too long is tried again with half its rows, down to a quarter.
        for _ in 0..3 {
            let pool = pool_of(random, &vocabulary, shape);
            if verdict_cost(&rule, &pool) <= limit.cost {
                return (rule, pool);
            }
            shape.rows /= 2;
        }
    }
}

/// An accepted rule and one device with many siblings: roots, and quantifiers over them inside one
/// another; or children of one row.
pub fn rule_and_siblings(random: &mut Random, limit: Together) -> (Vec<u32>, Vec<u32>) {
    loop {
        let vocabulary = Vocabulary::new(random);
        let roots = random.pick(&[5, 80]);
        let rows = random.between(4, limit.rows);
        let any = PoolShape::with_rows(random, rows);
        let shape = PoolShape { devices: 1, roots, spread: true, wide: true, ..any };
        let table = pool_of(random, &vocabulary, shape);
        let (entries, nested) = (random.between(3, 10), random.between(2, 3));
        let shape = RuleShape { entries, nested, roots, ..RuleShape::new(random) };
        let rule = rule_of(random, &vocabulary, shape);
        if reading_cost(&rule, &table) <= limit.cost {
            return (rule, table);
        }
    }
}

/// An accepted rule in which quantifiers, most of them over roots, stand around and beside one another, and
/// one device with roots of their names: each is read with own rows and elsewhere within others' bodies.
pub fn rule_and_roots(random: &mut Random, cost: u64) -> (Vec<u32>, Vec<u32>) {
    loop {
        let names = random.between(2, 3) as u32;
        let vocabulary = Vocabulary { names: (1..=names).collect(), ..Vocabulary::new(random) };
        let rule = rule_over_roots(random, &vocabulary);
        let table = device_of_roots(random, &vocabulary);
        if reading_cost(&rule, &table) <= cost {
            return (rule, table);
        }
    }
}

pub fn rule_over_roots(random: &mut Random, vocabulary: &Vocabulary) -> Vec<u32> {
    let shape = RuleShape {
        entries: random.between(5, 24),
        nested: random.between(2, MOST_NESTED),
        weights: random.pick(&[[1, 6, 4], [1, 8, 2], [2, 4, 4]]),
        sides: Sides::Any,
        roots: random.pick(&[80, 100]),
        any: some_any(random),
    };
    rule_of(random, vocabulary, shape)
}

/// One device with 2 to 12 roots, not all of one name, and a few rows under them.
pub fn device_of_roots(random: &mut Random, vocabulary: &Vocabulary) -> Vec<u32> {
    loop {
        let (rows, roots) = (random.between(2, 16), random.pick(&[70, 85, 100]));
        let shape = PoolShape { devices: 1, roots, ..PoolShape::with_rows(random, rows) };
        let table = pool_of(random, vocabulary, shape);
        let names: Vec<u32> =
            rows_of(&table).iter().filter(|row| row.is_root()).map(|row| row.name).collect();
        if (2..=12).contains(&names.len()) && names.iter().any(|&name| name != names[0]) {
            return table;
        }
    }
}

/// A rule about as nested as may be and an accepted table of a few rows, most often of one device.
pub fn nested_rule_and_table(random: &mut Random, cost: u64) -> (NestedRule, Vec<u32>) {
    if random.chance(30) {
        return nested_rule_and_chains(random, cost);
    }
    let names = random.between(1, 3) as u32;
    let vocabulary = Vocabulary { names: (1..=names).collect(), ..Vocabulary::new(random) };
    let rule = nested_rule(random, &vocabulary);
    let mut rows = if random.chance(90) { random.below(12) } else { random.between(12, 30) };
    loop {
        let devices = if random.chance(85) { 1 } else { random.between(2, 3) };
        // Chains are long enough for quantifiers that all stand under one another's variables.
        let chained = random.pick(&[40, 95]);
        let shape = PoolShape { devices, chained, ..PoolShape::with_rows(random, rows) };
        let table = pool_of(random, &vocabulary, shape);
        if takes(&rule, &table) <= cost {
            return (rule, table);
        }
        // No rule takes long without rows.
        rows /= 2;
    }
}

/// The innermost quantifiers of other rules seldom find rows: here most of them follow a chain that is about
/// as long as quantifiers may be nested, and rows of that depth are theirs alone.
fn nested_rule_and_chains(random: &mut Random, cost: u64) -> (NestedRule, Vec<u32>) {
    let names = (1..=MOST_NESTED as u32 + 1).collect();
    let vocabulary = Vocabulary { names, ..Vocabulary::new(random) };
    let chained = random.pick(&[90, 100, 100]);
    loop {
        let rule = nested_rule_along(random, &vocabulary, chained);
        // From any number of rows beside the chain down to none. Even so a rule over any name may take long.
        for beside in [random.below(10), random.below(4), 0] {
            let length = MOST_NESTED + random.below(2);
            let table = chains(random, &vocabulary, length, beside);
            if takes(&rule, &table) <= cost {
                return (rule, table);
            }
        }
    }
}

fn takes(rule: &NestedRule, table: &[u32]) -> u64 {
    verdict_cost(&rule.words, table).max(reading_cost(&rule.words, table))
}

/// An accepted rule and an accepted table of so many rows, most often of one device.
pub fn rule_and_deep_rows(random: &mut Random, rows: usize, cost: u64) -> (Vec<u32>, Vec<u32>) {
    loop {
        let vocabulary = Vocabulary::new(random);
        let rule_shape = RuleShape::new(random);
        let rule = rule_of(random, &vocabulary, rule_shape);
        let devices = random.pick(&[1, 1, 1, 2, 3]);
        let table = deep_rows(random, &vocabulary, devices, rows);
        if verdict_cost(&rule, &table).max(reading_cost(&rule, &table)) <= cost {
            return (rule, table);
        }
    }
}

/// An accepted table with few roots: paths, wide and deep trees.
pub fn deep_rows(random: &mut Random, vocabulary: &Vocabulary, devices: usize, rows: usize) -> Vec<u32> {
    let (roots, chained) = (random.pick(&[0, 0, 5, 20]), random.pick(&[0, 60, 95, 100]));
    let shape = PoolShape { devices, roots, chained, ..PoolShape::with_rows(random, rows) };
    pool_of(random, vocabulary, shape)
}

/// An accepted rule, and the tables of devices whose rows together are accepted; some have no rows.
pub fn rule_and_devices(random: &mut Random, limit: Together) -> (Vec<u32>, Vec<Vec<u32>>) {
    rule_and_devices_of(random, limit, rule_and_pool)
}

/// The same with quantifiers over any name.
pub fn any_names_and_devices(random: &mut Random, limit: Together) -> (Vec<u32>, Vec<Vec<u32>>) {
    rule_and_devices_of(random, limit, rule_and_any_names)
}

fn rule_and_devices_of(
    random: &mut Random,
    limit: Together,
    rule_and_pool: fn(&mut Random, Together) -> RuleAndTable,
) -> (Vec<u32>, Vec<Vec<u32>>) {
    loop {
        let (rule, pool) = rule_and_pool(random, limit);
        let devices = devices_of(&pool);
        let reading: u64 = devices.iter().fold(0, |cost, own| cost.saturating_add(reading_cost(&rule, own)));
        if reading > limit.cost {
            continue;
        }
        let devices = with_empty_devices(random, &devices);
        return (rule, devices);
    }
}

/// The tables of these devices, at times with tables without rows among them.
pub fn with_empty_devices(random: &mut Random, devices: &[&[u32]]) -> Vec<Vec<u32>> {
    let mut devices: Vec<Vec<u32>> = devices.iter().map(|own| own.to_vec()).collect();
    while random.chance(25) {
        devices.insert(random.below(devices.len() + 1), vec![]);
    }
    devices
}

/// A fault or several in the rule, in the pool or in both.
pub fn damaged_together(random: &mut Random, rule: Vec<u32>, pool: Vec<u32>) -> (Vec<u32>, Vec<u32>) {
    match random.below(3) {
        0 => (damaged_rule(random, &rule), pool),
        1 => (rule, damaged_table(random, &pool)),
        _ => (damaged_rule(random, &rule), damaged_table(random, &pool)),
    }
}
