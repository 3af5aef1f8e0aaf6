//! How many comparisons were made, by the answer expected.

use std::collections::BTreeMap;

use crate::answer::Answer;

#[derive(Clone, Debug, Default)]
pub struct Tally {
    pub compared: u64,
    /// By the number of the refusal; 0 counts the accepted calls.
    numbers: BTreeMap<u32, u64>,
    /// Accepted calls with the value 0, and with another.
    values: [u64; 2],
    /// What a test counts beside the answers.
    notes: BTreeMap<String, u64>,
}

impl Tally {
    pub fn count(&mut self, expected: Answer) {
        self.compared += 1;
        *self.numbers.entry(expected.number()).or_default() += 1;
        if let Answer::Done(value) = expected {
            self.values[(value > 0) as usize] += 1;
        }
    }

    pub fn note(&mut self, what: String) {
        *self.notes.entry(what).or_default() += 1;
    }

    pub fn add(&mut self, other: &Tally) {
        self.compared += other.compared;
        for (&refusal, number) in &other.numbers {
            *self.numbers.entry(refusal).or_default() += number;
        }
        for (sum, number) in self.values.iter_mut().zip(other.values) {
            *sum += number;
        }
        for (what, number) in &other.notes {
            *self.notes.entry(what.clone()).or_default() += number;
        }
    }

    /// Fails unless each of these refusals (0: accepted) was expected at least so often.
    pub fn saw_each(&self, numbers: impl IntoIterator<Item = u32>, least: u64) {
        for number in numbers {
            let seen = self.numbers.get(&number).copied().unwrap_or(0);
            assert!(seen >= least, "refusal {number} was expected only {seen} times: {self:?}");
        }
    }

    /// Fails unless this was noted at least so often.
    pub fn saw_noted(&self, what: &str, least: u64) {
        let seen = self.notes.get(what).copied().unwrap_or(0);
        assert!(seen >= least, "{what}: only {seen} times: {self:?}");
    }

    /// Fails unless accepted calls had the value 0, and another, at least so often.
    pub fn saw_both_values(&self, least: u64) {
        assert!(self.values.iter().all(|&seen| seen >= least), "values seen: {self:?}");
    }
}
