//! The rows of one device within the table.

use super::table::{accepted_table, rows_of, Row, ROW_WORDS};
use super::tests_of_line::test_each;
use crate::answer::{Refusal, Span};

pub fn device_rows(table: &[u32], device: u32) -> Span {
    let rows = accepted_table(table).unwrap_or_default();
    let own = |place: &usize| rows[*place].device == device;
    match (0..rows.len()).find(own) {
        Some(start) => {
            Span { start: start * ROW_WORDS, length: (0..rows.len()).filter(own).count() * ROW_WORDS }
        }
        None => Span { start: 0, length: 0 },
    }
}

/// An accepted table, cut into its devices.
pub fn devices_of(table: &[u32]) -> Vec<&[u32]> {
    let mut devices = vec![];
    let mut rest = table;
    for rows in rows_of(table).chunk_by(|row, next| row.device == next.device) {
        let (own, others) = rest.split_at(rows.len() * ROW_WORDS);
        devices.push(own);
        rest = others;
    }
    devices
}

/// Check 14.
pub fn check_one_device(rows: &[Row]) -> Result<(), Refusal> {
    test_each(14, rows.len(), |place| rows[place].device != rows[0].device)
}
