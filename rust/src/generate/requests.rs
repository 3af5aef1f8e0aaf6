//! What may be wrong with a request for a part beside its rules and its table.

use crate::checker::{rows_of, Row};
use crate::random::Random;

pub fn unknown_mode(random: &mut Random) -> u32 {
    random.pick(&[0, 4, 5, 65_537, 1 << 31, u32::MAX])
}

/// The rows of a device, and a root of the next one behind them.
pub fn with_another_device(random: &mut Random, device: &[u32]) -> Vec<u32> {
    let next = rows_of(device).last().map_or(1, |row| row.device + 1);
    let other = Row { device: next, at: 1, up: 0, deep: 0, name: 1, value: random.word() };
    [device, &other.words()].concat()
}

/// Mostly the table of one device, at times of several.
pub fn one_or_several(random: &mut Random, devices: &[Vec<u32>]) -> Vec<u32> {
    let one = if devices.is_empty() { vec![] } else { devices[random.below(devices.len())].clone() };
    match random.below(10) {
        0..=1 => devices.concat(),
        2 => with_another_device(random, &one),
        _ => one,
    }
}
