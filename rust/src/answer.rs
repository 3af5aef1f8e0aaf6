//! What a call answers.

/// A number and a place.
#[derive(Clone, Copy, Debug, PartialEq, Eq)]
pub struct Refusal {
    pub number: u32,
    pub place: usize,
}

#[derive(Clone, Copy, Debug, PartialEq, Eq)]
pub enum Answer {
    Done(usize),
    Refused(Refusal),
    /// What the header rules out: a place with an accepted call, or a value with a refusal.
    Malformed {
        number: u32,
        place: usize,
        value: usize,
    },
}

impl Answer {
    pub fn refused(number: u32, place: usize) -> Answer {
        Answer::Refused(Refusal { number, place })
    }

    pub fn from_words(number: u32, place: usize, value: usize) -> Answer {
        match (number, place, value) {
            (0, 0, value) => Answer::Done(value),
            (number, place, 0) if is_refusal(number) => Answer::refused(number, place),
            _ => Answer::Malformed { number, place, value },
        }
    }

    /// The number of the refusal, 0 for an accepted call.
    pub fn number(&self) -> u32 {
        match *self {
            Answer::Done(_) => 0,
            Answer::Refused(refusal) => refusal.number,
            Answer::Malformed { number, .. } => number,
        }
    }
}

impl From<Result<usize, Refusal>> for Answer {
    fn from(result: Result<usize, Refusal>) -> Answer {
        match result {
            Ok(value) => Answer::Done(value),
            Err(refusal) => Answer::Refused(refusal),
        }
    }
}

/// Whether a refusal may have this number. 15 is retired, 27 not used.
pub fn is_refusal(number: u32) -> bool {
    matches!(number, 1..=14 | 16..=26 | 28)
}

/// Where the rows of one device stand, in words.
#[repr(C)]
#[derive(Clone, Copy, Debug, PartialEq, Eq)]
pub struct Span {
    pub start: usize,
    pub length: usize,
}

/// What a trial answers.
#[repr(C)]
#[derive(Clone, Copy, Debug, PartialEq, Eq)]
pub struct Trial {
    /// 0 if no step is refused; the place then is 0 too.
    pub number: u32,
    pub place: usize,
    /// Steps done.
    pub steps: usize,
    /// Rows of the working table.
    pub rows: usize,
}

impl Trial {
    /// A refusal before step 0.
    pub fn before_steps(refusal: Refusal) -> Trial {
        Trial { number: refusal.number, place: refusal.place, steps: 0, rows: 0 }
    }

    /// The refusal, or the number of steps done.
    pub fn answer(&self) -> Answer {
        match self.number {
            0 => Answer::Done(self.steps),
            number => Answer::refused(number, self.place),
        }
    }
}

#[cfg(test)]
mod tests {
    use super::*;

    #[test]
    fn unused_numbers_are_no_answers() {
        for number in [15, 27, 29, 100, 126, 128] {
            let malformed = Answer::Malformed { number, place: 0, value: 0 };
            assert_eq!(Answer::from_words(number, 0, 0), malformed);
        }
        for number in (1..=14).chain(16..=26).chain([28]) {
            assert_eq!(Answer::from_words(number, 3, 0), Answer::refused(number, 3));
        }
    }
}
