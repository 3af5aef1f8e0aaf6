//! Spare rows.

use super::entry::Entry;
use super::reach::Reach;
use super::reading::{Reading, Switch};
use super::table::Row;

/// Whether each row of the device is spare.
pub fn spare_rows(entries: &[Entry], rows: &[Row]) -> Vec<bool> {
    spare_rows_reached_by(entries, entries, rows)
}

/// The same where a rule with other names tells which rows are reached: only so can a test tell what a wrong
/// name test would do in reaching, or in reading, alone.
pub fn spare_rows_reached_by(reaching: &[Entry], entries: &[Entry], rows: &[Row]) -> Vec<bool> {
    let (switch, reach) = (Switch { entries, rows }, Reach::new(reaching, rows));
    let spare = |row: usize| {
        reach.reaching(row).into_iter().all(|(quantifier, mut bound)| {
            switch.read(quantifier.body, &mut bound) == Reading::of(quantifier.every)
        })
    };
    (0..rows.len()).map(spare).collect()
}
