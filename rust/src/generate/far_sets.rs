//! Sets whose rules start anywhere, up to the last entry at which a rule can.

use super::rules::shift_children;
use super::sets::Set;
use super::vocabulary::NOT_IN_POOL;
use crate::checker::{ENTRY_WORDS, MOST_ENTRIES, MOST_RULES};
use crate::random::Random;

/// The rules of an accepted set, each behind nots, and mostly idle rules before or among them: the same rows are
/// reached and spare. Often the set is as long as may be.
pub fn far_apart(random: &mut Random, set: &Set) -> Set {
    let mut rules: Vec<Vec<u32>> = set.each().into_iter().map(<[u32]>::to_vec).collect();
    add_idle_rules(random, &mut rules);
    // Percent of the rules that need not be as long as may be.
    let shorter = random.pick(&[0, 0, 20, 100, 100]);
    for rule in &mut rules {
        let room = MOST_ENTRIES - rule.len() / ENTRY_WORDS;
        let nots = if random.chance(shorter) { random.below(room + 1) } else { room };
        *rule = behind_nots(nots, rule);
    }
    Set::of(&rules)
}

/// Rules that find no rows, in front of all others or anywhere among them; mostly as many as may be.
fn add_idle_rules(random: &mut Random, rules: &mut Vec<Vec<u32>>) {
    let count = match random.below(5) {
        0 => rules.len(),
        1 => random.between(rules.len(), MOST_RULES),
        _ => MOST_RULES,
    };
    let in_front = random.chance(60);
    while rules.len() < count {
        let place = if in_front { 0 } else { random.below(rules.len() + 1) };
        rules.insert(place, vec![random.pick(&[5, 6]), 1, 0, NOT_IN_POOL, 7, 0, 1, 0]);
    }
}

/// The rule with so many nots around it: an even number leaves its verdict and marks, too.
pub fn behind_nots(nots: usize, rule: &[u32]) -> Vec<u32> {
    let mut words: Vec<u32> = (1..=nots as u32).flat_map(|child| [1, child, 0, 0]).collect();
    words.extend(rule);
    shift_children(&mut words[nots * ENTRY_WORDS..], nots as u32);
    words
}
