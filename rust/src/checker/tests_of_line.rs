//! One line of the refusal table: it is tested whole before the next.

use crate::answer::Refusal;

/// Tests the places from 0; the first at fault refuses.
pub fn test_each(number: u32, places: usize, fault: impl Fn(usize) -> bool) -> Result<(), Refusal> {
    match (0..places).find(|&place| fault(place)) {
        Some(place) => Err(Refusal { number, place }),
        None => Ok(()),
    }
}

/// A line without places of its own.
pub fn test(number: u32, fault: bool) -> Result<(), Refusal> {
    test_each(number, 1, |_| fault)
}
