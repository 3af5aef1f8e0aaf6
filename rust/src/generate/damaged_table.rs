//! Tables with faults under 8 to 12 and 26.

use super::depths::{change_row, depth_behind, hang_under, make_wrong, row_at};
use super::faults::{change_a_word, with_faults};
use crate::checker::{Row, MOST_ROWS, ROW_WORDS};
use crate::random::Random;

/// In the order of the checks.
pub const TABLE_FAULTS: [u32; 6] = [8, 9, 10, 11, 26, 12];

/// A table with one fault or several.
pub fn damaged_table(random: &mut Random, table: &[u32]) -> Vec<u32> {
    with_faults(random, table, &TABLE_FAULTS, damage_table)
}

/// Small words at any place, mostly in whole rows that rise: any check may be the first to refuse.
pub fn any_table(random: &mut Random) -> Vec<u32> {
    let mut table = vec![];
    for row in 0..random.below(7) as u32 {
        let device = if random.chance(95) { 1 + row / 3 } else { random.below(4) as u32 };
        let at = if random.chance(95) { 1 + row } else { random.below(9) as u32 };
        let up = random.below(row as usize + 2) as u32 * random.below(2) as u32;
        let right = depth_behind(&table, device, up).filter(|_| random.chance(95));
        let deep = right.unwrap_or_else(|| random.below(4) as u32);
        let (name, value) = (random.between(1, 2) as u32, random.below(4) as u32);
        table.extend(Row { device, at, up, deep, name, value }.words());
    }
    if random.chance(20) {
        change_a_word(random, &mut table);
    }
    if random.chance(5) && !table.is_empty() {
        table.truncate(random.below(table.len()));
    }
    table
}

/// Puts a fault under this number into a table, which may already have others.
pub fn damage_table(random: &mut Random, table: &mut Vec<u32>, number: u32) {
    let rows = table.len() / ROW_WORDS;
    match number {
        8 => wrong_length(random, table),
        _ if rows == 0 => {}
        9 => {
            let place = random.below(rows);
            change_row(table, place, |row| out_of_range(random, row));
        }
        10 => wrong_order(random, table, rows),
        11 => wrong_parent(random, table, rows),
        26 => wrong_depths(random, table, rows),
        _ => equal_sibling(random, table, rows),
    }
}

/// Leftover or missing words, or too many rows.
fn wrong_length(random: &mut Random, table: &mut Vec<u32>) {
    let rows = match random.below(5) {
        0 => 0,
        1 | 2 => table.len() / ROW_WORDS,
        3 => MOST_ROWS + 1,
        _ => MOST_ROWS + random.between(1, 300),
    };
    let leftover = if rows > MOST_ROWS { random.below(ROW_WORDS) } else { random.between(1, ROW_WORDS - 1) };
    let words = rows * ROW_WORDS + leftover;
    // What is added goes on as the table ends, so that no other check finds it first.
    let last = table.get(table.len().saturating_sub(ROW_WORDS)..).unwrap_or(&[]).to_vec();
    while table.len() < words {
        table.push(last.get(table.len() % ROW_WORDS).copied().unwrap_or(1));
    }
    table.truncate(words);
}

/// Check 9; at times several words of the row.
pub fn out_of_range(random: &mut Random, row: &mut Row) {
    let out = [0, 0, 65_536, 65_537, 2_147_483_647, 2_147_483_648, u32::MAX];
    loop {
        match random.below(3) {
            0 => row.device = random.pick(&out),
            1 => row.at = random.pick(&out),
            _ => row.name = random.pick(&out),
        }
        if random.chance(80) {
            return;
        }
    }
}

/// Check 10: two rows exchanged, or an identity repeated, or an at or device that falls.
fn wrong_order(random: &mut Random, table: &mut [u32], rows: usize) {
    let (first, second) = (random.below(rows), random.below(rows));
    let (other, row) = (row_at(table, first), row_at(table, second));
    match random.below(4) {
        0 => {
            change_row(table, first, |words| *words = row);
            change_row(table, second, |words| *words = other);
        }
        1 => change_row(table, second, |row| (row.device, row.at) = (other.device, other.at)),
        2 => change_row(table, second, |row| row.at = other.at),
        _ => change_row(table, second, |row| row.device = other.device),
    }
}

/// Check 11: its own at, one of another row, one that nothing has.
fn wrong_parent(random: &mut Random, table: &mut [u32], rows: usize) {
    let place = random.below(rows);
    let (own, other) = (row_at(table, place), row_at(table, random.below(rows)));
    let up = match random.below(6) {
        0 => own.at,
        1 => own.at.wrapping_add(1),
        2 => own.at.wrapping_sub(1),
        3 => other.at,
        _ => random.pick(&[65_535, 65_536, 2_147_483_648, u32::MAX]),
    };
    hang_under(table, place, up);
}

/// Check 26, at one row or several.
fn wrong_depths(random: &mut Random, table: &mut [u32], rows: usize) {
    loop {
        let place = random.below(rows);
        make_wrong(random, table, place);
        if random.chance(75) {
            return;
        }
    }
}

/// Check 12: the name and value of another row, and often its parent.
fn equal_sibling(random: &mut Random, table: &mut [u32], rows: usize) {
    let (first, second) = (random.below(rows), random.below(rows));
    let other = row_at(table, first);
    change_row(table, second, |row| (row.name, row.value) = (other.name, other.value));
    if random.chance(70) {
        let up = if random.chance(50) { 0 } else { other.up };
        hang_under(table, second, up);
    }
    if row_at(table, second).up == 0 && random.chance(70) {
        hang_under(table, first, 0);
    }
}
