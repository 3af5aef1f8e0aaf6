//! Tables of chains: the name of a row tells how deep it hangs.

use std::collections::HashSet;

use super::vocabulary::Vocabulary;
use crate::checker::Row;
use crate::random::Random;

/// An accepted table. Each device has a chain of `length` rows, each under the one before, and up to `beside`
/// more rows at any depth of it.
pub fn chains(random: &mut Random, vocabulary: &Vocabulary, length: usize, beside: usize) -> Vec<u32> {
    let (mut table, mut taken) = (vec![], HashSet::new());
    for device in 1..=random.pick(&[1, 1, 1, 2]) {
        // The at of the rows of each depth.
        let mut ats: Vec<Vec<u32>> = vec![vec![]; length];
        for row in 0..length + random.below(beside + 1) {
            let (at, depth) = (row as u32 + 1, if row < length { row } else { random.below(length) });
            let (siblings, up) = if depth == 0 { (0, 0) } else { (device, random.pick(&ats[depth - 1])) };
            // Check 12: few values, but none twice among siblings, which all have the same name here.
            let mut value = vocabulary.value(random);
            while !taken.insert([siblings, up, value]) {
                value = vocabulary.value_near(random, length + beside + 4);
            }
            ats[depth].push(at);
            let (deep, name) = (depth as u32, vocabulary.names[depth]);
            table.extend(Row { device, at, up, deep, name, value }.words());
        }
    }
    table
}
