//! Several faults at once, so that the order of the checks is seen.

use super::vocabulary::word_of_any_class;
use crate::random::Random;

/// A table or rule with one of these faults, or with two or three; at times one word more is changed.
pub fn with_faults(
    random: &mut Random,
    words: &[u32],
    faults: &[u32],
    damage: fn(&mut Random, &mut Vec<u32>, u32),
) -> Vec<u32> {
    let mut damaged = words.to_vec();
    for _ in 0..random.pick(&[1, 1, 2, 2, 3]) {
        let number = random.pick(faults);
        damage(random, &mut damaged, number);
    }
    if random.chance(20) {
        change_a_word(random, &mut damaged);
    }
    damaged
}

pub fn change_a_word(random: &mut Random, words: &mut [u32]) {
    if !words.is_empty() {
        let place = random.below(words.len());
        words[place] = word_of_any_class(random);
    }
}
