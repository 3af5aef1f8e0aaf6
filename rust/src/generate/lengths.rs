//! Lengths of output buffers, in words or bytes.

use super::sets::Set;
use crate::answer::Answer;
use crate::checker::{part, set_part, ROW_WORDS};
use crate::random::Random;

/// Each length around the answer: none, 1 less, the answer, 1 more, much longer.
pub fn lengths_around(answer: usize) -> [usize; 5] {
    [0, answer.saturating_sub(1), answer, answer + 1, answer + 700]
}

pub fn one_length_around(random: &mut Random, answer: usize) -> usize {
    match random.below(8) {
        0 => random.below(answer + 1),
        1..=3 => answer + random.below(12),
        _ => random.pick(&lengths_around(answer)),
    }
}

/// At times each length around the answer, else three of them.
pub fn some_lengths_around(random: &mut Random, answer: usize) -> Vec<usize> {
    match random.below(6) {
        0 => lengths_around(answer).to_vec(),
        _ => (0..3).map(|_| one_length_around(random, answer)).collect(),
    }
}

/// Mostly enough for any answer, at times about as long as this one.
pub fn mostly_enough(random: &mut Random, enough: usize, answer: usize) -> usize {
    if random.chance(80) {
        enough
    } else {
        one_length_around(random, answer)
    }
}

/// The words of the part; none if it is refused.
pub fn words_sent(rule: &[u32], device: &[u32], mode: u32) -> usize {
    words_of_part(part(rule, device, mode, &mut vec![0; device.len()]))
}

/// The same of a set.
pub fn words_sent_for(set: &Set, device: &[u32], mode: u32) -> usize {
    words_of_part(set_part(&set.rules, &set.counts, device, mode, &mut vec![0; device.len()]))
}

fn words_of_part(answer: Answer) -> usize {
    match answer {
        Answer::Done(rows) => rows * ROW_WORDS,
        _ => 0,
    }
}
