//! The rules of a set as one rule.

use super::rules::shift_children;
use super::sets::Set;
use crate::checker::{ENTRY_WORDS, MOST_ENTRIES};

/// The conjunction of the rules of an accepted set: an and for each rule but the last, then the rules. None if
/// that has more entries than a rule may have.
pub fn conjunction(set: &Set) -> Option<Vec<u32>> {
    let ands = set.counts.len() - 1;
    if ands + set.rules.len() / ENTRY_WORDS > MOST_ENTRIES {
        return None;
    }
    let (mut starts, mut rules) = (vec![], vec![]);
    for rule in set.each() {
        let start = ands + rules.len() / ENTRY_WORDS;
        starts.push(start as u32);
        let mut rule = rule.to_vec();
        shift_children(&mut rule, start as u32);
        rules.extend(rule);
    }
    let and = |place: usize| {
        let rest = if place + 1 < ands { place as u32 + 1 } else { starts[ands] };
        [2, starts[place], rest, 0]
    };
    Some([(0..ands).flat_map(and).collect(), rules].concat())
}
