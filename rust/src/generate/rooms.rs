//! Lengths of the two outputs of a plan.

use super::plans::Plan;
use crate::checker::{Room, ROW_WORDS, STEP_WORDS};
use crate::random::Random;

/// Enough for every step of the plan.
pub fn enough_room(plan: &Plan) -> Room {
    let steps = plan.steps.len().div_ceil(STEP_WORDS);
    Room { words: plan.pool.len() + steps * ROW_WORDS, bytes: steps * plan.set.counts.len() }
}

/// Mostly enough; else about as long as the pool, or as some step needs.
pub fn any_room(random: &mut Random, plan: &Plan) -> Room {
    let enough = enough_room(plan);
    let mut room = Room { words: enough.words + random.below(9), bytes: enough.bytes + random.below(9) };
    if random.chance(25) {
        room.words = short_words(random, plan.pool.len(), enough.words);
    }
    if random.chance(25) {
        room.bytes = short_bytes(random, plan.set.counts.len(), enough.bytes);
    }
    room
}

/// One of them is too short for some step, or about so.
pub fn short_room(random: &mut Random, plan: &Plan) -> Room {
    let mut room = enough_room(plan);
    let choice = random.below(5);
    if choice != 0 {
        room.bytes = short_bytes(random, plan.set.counts.len(), room.bytes);
    }
    if choice < 3 {
        room.words = short_words(random, plan.pool.len(), room.words);
    }
    room
}

/// The pool's words, a word or a row less or more, or any.
fn short_words(random: &mut Random, pool: usize, enough: usize) -> usize {
    match random.below(8) {
        0 => pool.saturating_sub(1),
        1 => random.below(pool + 1),
        2..=4 => pool,
        5 => pool + ROW_WORDS - 1,
        6 => pool + ROW_WORDS,
        _ => random.between(pool, enough),
    }
}

/// None, a byte less than some steps need, what they need, or any.
fn short_bytes(random: &mut Random, rules: usize, enough: usize) -> usize {
    let needed = random.below(enough / rules.max(1) + 1) * rules;
    match random.below(6) {
        0 => 0,
        1 | 2 => needed.saturating_sub(1),
        3 => needed,
        _ => random.between(0, enough),
    }
}
