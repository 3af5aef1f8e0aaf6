//! What the words of values and constants stand for.

/// The word of the largest value or constant, 2,147,483,647.
pub const MOST_VALUE: u32 = 2_147_483_647;
/// The word of the least, -2,147,483,648. This one and all above it stand for numbers below zero.
pub const LEAST_VALUE: u32 = 2_147_483_648;

pub fn value_of(word: u32) -> i64 {
    match word {
        ..=MOST_VALUE => i64::from(word),
        LEAST_VALUE.. => i64::from(word) - 4_294_967_296,
    }
}

/// None if the value is out of range.
pub fn word_of(value: i64) -> Option<u32> {
    match value {
        0..=2_147_483_647 => Some(value as u32),
        -2_147_483_648..=-1 => Some((value + 4_294_967_296) as u32),
        _ => None,
    }
}
