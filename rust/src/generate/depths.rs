//! The depths of rows, right and wrong. Tables are given as words, since they may have any damage already.

use std::collections::HashSet;

use super::vocabulary::word_of_any_class;
use crate::checker::{Row, MOST_ROWS, ROW_WORDS};
use crate::random::Random;

/// A row of a table that is long enough to have it.
pub fn row_at(table: &[u32], place: usize) -> Row {
    Row::from_words(table.as_chunks::<ROW_WORDS>().0[place])
}

pub fn change_row(table: &mut [u32], place: usize, change: impl FnOnce(&mut Row)) {
    let mut row = row_at(table, place);
    change(&mut row);
    table.as_chunks_mut::<ROW_WORDS>().0[place] = row.words();
}

/// The depth of a row with this up behind these; none without a parent. A wrong one may wrap.
pub fn depth_behind(earlier: &[u32], device: u32, up: u32) -> Option<u32> {
    if up == 0 {
        return Some(0);
    }
    let mut rows = (0..earlier.len() / ROW_WORDS).map(|place| row_at(earlier, place));
    let parent = rows.find(|row| row.device == device && row.at == up)?;
    Some(parent.deep.wrapping_add(1))
}

/// Gives a row another parent. If that one is there, the depth of the row and of all under it follows.
pub fn hang_under(table: &mut [u32], place: usize, up: u32) {
    change_row(table, place, |row| row.up = up);
    let row = row_at(table, place);
    if let Some(deep) = depth_behind(&table[..place * ROW_WORDS], row.device, up) {
        add_to_depths(table, place, deep.wrapping_sub(row.deep));
    }
}

/// Makes the depth of a row wrong, which was right. What hangs under it keeps its depths, or has depths that
/// agree with the wrong one, or the same wrong one.
pub fn make_wrong(random: &mut Random, table: &mut [u32], place: usize) {
    let row = row_at(table, place);
    let wrong = wrong_depth(random, row);
    match random.below(3) {
        0 => change_row(table, place, |row| row.deep = wrong),
        1 => add_to_depths(table, place, wrong.wrapping_sub(row.deep)),
        _ => branch_of(table, place).into_iter().for_each(|place| {
            change_row(table, place, |row| row.deep = wrong);
        }),
    }
}

/// Another depth than that of the row: near it, a limit, or the word of another column.
pub fn wrong_depth(random: &mut Random, row: Row) -> u32 {
    loop {
        let deep = match random.below(8) {
            0 | 1 => row.deep.wrapping_add(1),
            // The parent's own, or the largest word at a root.
            2 | 3 => row.deep.wrapping_sub(1),
            4 => row.deep.wrapping_add(2),
            5 => random.pick(&[0, 1, MOST_ROWS as u32 - 1, MOST_ROWS as u32, u32::MAX - 1, u32::MAX]),
            6 => random.pick(&[row.device, row.at, row.up, row.name, row.value]),
            _ => word_of_any_class(random),
        };
        if deep != row.deep {
            return deep;
        }
    }
}

fn add_to_depths(table: &mut [u32], place: usize, added: u32) {
    for place in branch_of(table, place) {
        change_row(table, place, |row| row.deep = row.deep.wrapping_add(added));
    }
}

/// The places of a row and of all rows that hang under it.
fn branch_of(table: &[u32], place: usize) -> Vec<usize> {
    let top = row_at(table, place);
    let (mut places, mut ats) = (vec![place], HashSet::from([top.at]));
    for later in place + 1..table.len() / ROW_WORDS {
        let row = row_at(table, later);
        if row.device == top.device && ats.contains(&row.up) {
            places.push(later);
            ats.insert(row.at);
        }
    }
    places
}
