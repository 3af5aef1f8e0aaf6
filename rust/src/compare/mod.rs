//! Running seeded cases and counting the comparisons.

pub mod archive;
pub mod calls;
pub mod each_call;
pub mod fillings;
pub mod fold;
mod lent;
pub mod refused_step;
pub mod steps;
mod tally;

pub use lent::{Lent, LentSet};
pub use tally::Tally;

use crate::answer::{is_refusal, Answer};
use crate::ffi;
use crate::random::Random;

const DEFAULT_SEED: u64 = 20_260_101;

/// One case, made from its own seed: run with that seed in `GABZERIL_SEED`, it is the first case.
pub struct Case {
    pub random: Random,
    seed: u64,
    tally: Tally,
}

/// Runs the cases; fails if they made fewer comparisons than promised. `test` sets the tests apart.
pub fn run(test: &str, cases: u64, promised: u64, mut one: impl FnMut(&mut Case)) -> Tally {
    let rounds = from_environment("GABZERIL_ROUNDS", 1);
    let first = from_environment("GABZERIL_SEED", DEFAULT_SEED);
    let mut tally = Tally::default();
    for seed in (first..).take((cases * rounds) as usize) {
        let mut case = Case::new(test, seed);
        one(&mut case);
        tally.add(&case.tally);
    }
    let compared = tally.compared;
    assert!(compared >= promised * rounds, "{test}: {compared} comparisons, promised {promised}");
    tally
}

fn from_environment(name: &str, default: u64) -> u64 {
    match std::env::var(name) {
        Ok(text) => text.parse().unwrap_or_else(|_| panic!("{name} is not a number: {text}")),
        Err(_) => default,
    }
}

impl Case {
    fn new(test: &str, seed: u64) -> Case {
        let name = test.bytes().fold(0, |sum: u64, byte| sum.wrapping_mul(257).wrapping_add(byte.into()));
        let mut random = Random::new(name ^ Random::new(seed).draw());
        ffi::null_for_empty(random.chance(50));
        Case { random, seed, tally: Tally::default() }
    }

    /// Counts something that the test promises to have seen.
    pub fn note(&mut self, what: impl Into<String>) {
        self.tally.note(what.into());
    }

    /// Counts those of these that were met.
    pub fn note_met<const N: usize>(&mut self, notes: [(bool, &str); N]) {
        notes.into_iter().filter(|(met, _)| *met).for_each(|(_, what)| self.note(what));
    }

    /// Counts one comparison; fails if its outcome was not the expected one. A number that is not used may
    /// not be expected, so a call that answers it fails in any case.
    pub fn compared(&mut self, same: bool, expected: Answer, describe: impl FnOnce() -> String) {
        self.tally.count(expected);
        let used = expected.number() == 0 || is_refusal(expected.number());
        assert!(same && used, "GABZERIL_SEED={}: {}", self.seed, describe());
    }
}

impl Drop for Case {
    /// A failure outside `compared` also tells its seed.
    fn drop(&mut self) {
        if std::thread::panicking() {
            eprintln!("failed in the case of GABZERIL_SEED={}", self.seed);
        }
    }
}

#[cfg(test)]
mod tests {
    use super::*;

    fn both_sides_answer(number: u32) {
        let answer = Answer::refused(number, 0);
        Case::new("unused", 7).compared(true, answer, || "answered by both sides".into());
    }

    #[test]
    #[should_panic(expected = "GABZERIL_SEED=7: answered by both sides")]
    fn the_retired_number_fails() {
        both_sides_answer(15);
    }

    #[test]
    #[should_panic(expected = "GABZERIL_SEED=7: answered by both sides")]
    fn a_number_that_is_not_used_fails() {
        both_sides_answer(27);
    }
}
