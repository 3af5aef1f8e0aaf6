//! The hash by which the library links rows. For each row it follows a chain of earlier rows of one hash, the
//! nearest first, for eight steps; if there are more, it compares all earlier rows one after the other.

use crate::checker::{Row, MOST_NAME};

/// How far the library follows a chain.
pub const STEPS: usize = 8;

/// The number of hashes.
pub const HASHES: u32 = 1 << 10;

/// What the words of a row are multiplied by.
pub const FACTORS: [u32; 4] = [947_282_241, 1_870_821_409, 669_926_575, 700_227_275];

/// The library's formula. The contract does not tell it, and the checker does not use it: it is known only so
/// that the library's rare way is run. Where the library's own becomes another, this one has to follow, or
/// tables made with it have nothing rare.
pub fn library_hash(device: u32, place: u32, name: u32, value: u32) -> u32 {
    let words = [device, place, name, value].into_iter();
    let sum =
        words.zip(FACTORS).fold(0, |sum: u32, (word, factor)| sum.wrapping_add(word.wrapping_mul(factor)));
    sum / (u32::MAX / HASHES + 1)
}

/// That of a row by its place. A parent is looked for under the same hash, with the child's up for the at.
pub fn place_hash(device: u32, at: u32) -> u32 {
    library_hash(device, at, 0, 0)
}

/// That of a row by what it may not share with an earlier sibling.
pub fn twin_hash(row: &Row) -> u32 {
    library_hash(if row.is_root() { 0 } else { row.device }, row.up, row.name, row.value)
}

/// The places of a device that have this hash, about 64, rising.
pub fn ats_of_hash(device: u32, hash: u32) -> impl Iterator<Item = u32> {
    (1..=MOST_NAME).filter(move |&at| place_hash(device, at) == hash)
}
