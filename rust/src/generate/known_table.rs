//! Tables that tell what their check must answer.

use crate::answer::Answer;
use crate::checker::ROW_WORDS;

#[derive(Clone, Debug)]
pub struct KnownTable {
    pub words: Vec<u32>,
    /// The faults put in, number and place, the one that is tested first in front.
    pub faults: Vec<(u32, usize)>,
}

impl KnownTable {
    pub fn accepted(words: &[u32]) -> KnownTable {
        KnownTable { words: words.to_vec(), faults: vec![] }
    }

    /// What the table's check must answer, by the way in which it was made.
    pub fn check(&self) -> Answer {
        match self.faults.first() {
            Some(&(number, place)) => Answer::refused(number, place),
            None => Answer::Done(self.words.len() / ROW_WORDS),
        }
    }

    /// The place of a fault, if it was put in.
    pub fn place_of(&self, number: u32) -> Option<usize> {
        self.faults.iter().find(|fault| fault.0 == number).map(|fault| fault.1)
    }

    /// Adds a fault that is tested before those put in so far; none if no row could have it.
    pub fn put_in_front(&mut self, number: u32, place: Option<usize>) {
        self.faults.splice(0..0, place.map(|place| (number, place)));
    }
}
