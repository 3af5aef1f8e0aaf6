//! Tables whose rows share one hash, with faults that the library has to look for among all of them.

use super::collisions::first_last_or_any;
use super::depths::{change_row, make_wrong};
use super::known_table::KnownTable;
use super::library_hash::{place_hash, STEPS};
use crate::checker::{rows_of, Row, MOST_NAME};
use crate::random::Random;

/// Mostly one fault, at times two or three; in the order of the checks from the last to the first.
const FAULTS: [&[u32]; 17] = [
    &[],
    &[],
    &[],
    &[11],
    &[11],
    &[26],
    &[26],
    &[26],
    &[26],
    &[12],
    &[12],
    &[12],
    &[12],
    &[12, 26],
    &[12, 11],
    &[26, 11],
    &[12, 26, 11],
];

/// A table of `colliding_rows`, most often with faults. One without rows can have none.
pub fn damaged_collisions(random: &mut Random, accepted: &[u32]) -> KnownTable {
    let mut table = KnownTable::accepted(accepted);
    let faults = if accepted.is_empty() { &[] } else { random.pick(&FAULTS) };
    for &number in faults {
        let (rows, words) = (rows_of(&table.words), &mut table.words);
        let place = match number {
            11 => Some(put_missing_parent(random, words, &rows)),
            26 => Some(put_wrong_depths(random, words, &rows)),
            _ => put_equal_sibling(random, words, &rows),
        };
        table.put_in_front(number, place);
    }
    table
}

/// The first row, the last or any; often only of those that are more than the library's steps behind what it
/// looks for.
fn deciding_place(random: &mut Random, rows: &[Row], is_sought: fn(&Row, &Row) -> bool) -> usize {
    let is_far = |place: &usize| {
        let first = rows[..*place].iter().position(|earlier| is_sought(earlier, &rows[*place]));
        first.is_some_and(|first| first + STEPS < *place)
    };
    let all = 0..rows.len();
    let far: Vec<usize> = if random.chance(60) { all.clone().filter(is_far).collect() } else { vec![] };
    first_last_or_any(random, &if far.is_empty() { all.collect() } else { far })
}

/// An up that no earlier row of the device has, though it has the hash of their places.
fn put_missing_parent(random: &mut Random, table: &mut [u32], rows: &[Row]) -> usize {
    let (place, hash) =
        (deciding_place(random, rows, Row::is_parent_of), place_hash(rows[0].device, rows[0].at));
    let row = rows[place];
    let is_missing = |up: u32| {
        let is_parent = |earlier: &Row| earlier.device == row.device && earlier.at == up;
        place_hash(row.device, up) == hash && !rows[..place].iter().any(is_parent)
    };
    // Rows of other devices.
    let elsewhere: Vec<u32> = rows[..place].iter().map(|row| row.at).filter(|&at| is_missing(at)).collect();
    let up = if !elsewhere.is_empty() && random.chance(50) {
        random.pick(&elsewhere)
    } else {
        // Its own, that of a later row, or one that no row has or can have.
        let from = random.pick(&[1, row.at, row.at + 1, MOST_NAME + 1, 1 << 31, u32::MAX - MOST_NAME]);
        (from..=u32::MAX).find(|&up| is_missing(up)).expect("each hash is that of many places")
    };
    change_row(table, place, |row| row.up = up);
    place
}

/// One row, or also rows behind it.
fn put_wrong_depths(random: &mut Random, table: &mut [u32], rows: &[Row]) -> usize {
    let place = deciding_place(random, rows, Row::is_parent_of);
    make_wrong(random, table, place);
    let others = random.pick(&[0, 0, 20, 100]);
    for later in place + 1..rows.len() {
        if random.chance(others) {
            make_wrong(random, table, later);
        }
    }
    place
}

/// The name and value of an earlier sibling, and so its hash; none if the row has no such sibling.
fn put_equal_sibling(random: &mut Random, table: &mut [u32], rows: &[Row]) -> Option<usize> {
    let place = deciding_place(random, rows, Row::is_sibling_of);
    let siblings: Vec<&Row> =
        rows[..place].iter().filter(|earlier| earlier.is_sibling_of(&rows[place])).collect();
    if siblings.is_empty() {
        return None;
    }
    let equal = first_last_or_any(random, &siblings);
    change_row(table, place, |row| (row.name, row.value) = (equal.name, equal.value));
    Some(place)
}
