//! Folding the equal siblings of one device, one pair after the other.

use super::device::check_one_device;
use super::files::put;
use super::table::{accepted_but_siblings, words_of, Row, ROW_WORDS};
use crate::answer::{Answer, Refusal};

/// The value is the number of rows left.
pub fn fold(table: &[u32], folded: &mut [u32]) -> Answer {
    put(words_left(table), folded).map(|words| words / ROW_WORDS).into()
}

fn words_left(table: &[u32]) -> Result<Vec<u32>, Refusal> {
    let rows = accepted_but_siblings(table)?;
    check_one_device(&rows)?;
    Ok(words_of(&folded_rows(&rows)))
}

/// Folds until no equal siblings are left.
pub fn folded_rows(rows: &[Row]) -> Vec<Row> {
    let mut rows = rows.to_vec();
    loop {
        let first = equal_siblings(&rows).next();
        let Some(pair) = first else { return rows };
        rows = with_pair_folded(&rows, pair);
    }
}

/// The places of each two equal siblings, the earlier and the later.
pub fn equal_siblings(rows: &[Row]) -> impl Iterator<Item = [usize; 2]> + '_ {
    let pairs = (0..rows.len()).flat_map(|later| (0..later).map(move |earlier| [earlier, later]));
    pairs.filter(|&[earlier, later]| rows[earlier].is_equal_sibling_of(&rows[later]))
}

/// The later row goes, and its children hang under the earlier one.
pub fn with_pair_folded(rows: &[Row], [earlier, later]: [usize; 2]) -> Vec<Row> {
    let (stays, goes) = (rows[earlier], rows[later]);
    let others = rows.iter().filter(|row| **row != goes);
    let hung = |row: &Row| if goes.is_parent_of(row) { Row { up: stays.at, ..*row } } else { *row };
    others.map(hung).collect()
}
