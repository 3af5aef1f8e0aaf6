//! What is wrong with a step, told apart from the checker: every check that it fails, not only the first.

use super::steps::{Walk, KINDS};
use super::Case;
use crate::checker::{Room, Row, ADD, MOST_NAME, MOST_ROWS, REMOVE, ROW_WORDS, SET, STEP_WORDS};

pub const ZERO: &str = "a row to set or remove whose device or at is 0";
pub const GONE: &str = "a row to set or remove that was removed before";
pub const PARENT_GONE: &str = "a row added under one that was removed before";
pub const PARENT_BEHIND: &str = "a row added before its parent";
pub const ROOTS_BY_SET: &str = "two equal roots of different devices, by set";
pub const ROOTS_BY_ADD: &str = "two equal roots of different devices, by add";
pub const EQUAL_WITHOUT_ROOM: &str = "an equal sibling that the table has no room for";
pub const SHORT_TABLE: &str = "17 by the table";
pub const SHORT_VERDICTS: &str = "17 by the verdicts";
pub const SHORT_BOTH: &str = "17 by both";

/// A step that fails both checks.
pub fn before(first: u32, second: u32) -> String {
    format!("{first} before {second}")
}

/// The last step is of this kind and has so many words.
pub fn cut(kind: &str, words: usize) -> String {
    format!("{kind}: a last step of {words} words")
}

pub fn note_refused_step(case: &mut Case, walk: &Walk, words: &[u32], room: Room, number: u32) {
    let done = walk.steps_done();
    let faults = faults(walk, words, room, done);
    assert_eq!(faults.first(), Some(&number), "a refused step");
    case.note(format!("{number} {}", if done == 0 { "at step 0" } else { "at a later step" }));
    faults[1..].iter().for_each(|&later| case.note(before(number, later)));
    let (kind, row) = kind_and_row(words);
    match number {
        23 => note_cut(case, kind, words.len()),
        11 | 24 => note_absent(case, walk, number, row),
        12 => note_equal(case, walk, kind, row, room),
        17 => {
            let (words, bytes) = (words_needed(&walk.rows, kind), (done + 1) * walk.rules());
            case.note(match (room.words < words, room.bytes < bytes) {
                (true, true) => SHORT_BOTH,
                (true, false) => SHORT_TABLE,
                _ => SHORT_VERDICTS,
            });
        }
        _ => {}
    }
}

fn note_cut(case: &mut Case, kind: u32, words: usize) {
    if let Some((_, kind)) = KINDS.iter().find(|(known, _)| *known == kind && words < STEP_WORDS) {
        case.note(cut(kind, words));
    }
}

/// The row to set or remove, or the parent of an added one, is not there.
fn note_absent(case: &mut Case, walk: &Walk, number: u32, row: Row) {
    let is_gone = |at: u32| walk.gone.iter().any(|gone| (gone.device, gone.at) == (row.device, at));
    let is_behind = |other: &Row| (other.device, other.at) == (row.device, row.up) && row.at < other.at;
    case.note_met([
        (number == 24 && (row.device == 0 || row.at == 0), ZERO),
        (number == 24 && is_gone(row.at), GONE),
        (number == 11 && is_gone(row.up), PARENT_GONE),
        (number == 11 && walk.rows.iter().any(is_behind), PARENT_BEHIND),
    ]);
}

fn note_equal(case: &mut Case, walk: &Walk, kind: u32, row: Row, room: Room) {
    let left = row_left(&walk.rows, kind, row).expect("a row that is set or added");
    let mut equal = walk.rows.iter().filter(|other| is_equal(other, &left));
    let between_devices = left.is_root() && equal.any(|other| other.device != left.device);
    case.note_met([
        (kind == SET && between_devices, ROOTS_BY_SET),
        (kind == ADD && between_devices, ROOTS_BY_ADD),
        (room.words < words_needed(&walk.rows, kind), EQUAL_WITHOUT_ROOM),
    ]);
}

/// Every check that a step fails, in the order in which they are made.
pub fn faults(walk: &Walk, words: &[u32], room: Room, done: usize) -> Vec<u32> {
    let (rows, (kind, row)) = (&walk.rows, kind_and_row(words));
    let there = rows.iter().any(|old| is_same(old, &row));
    let parent = rows.iter().find(|old| old.is_parent_of(&row) && old.at < row.at);
    let left = row_left(rows, kind, row);
    let is_twin = |old: &&Row| kind == ADD || !is_same(old, &row);
    let short = room.words < words_needed(rows, kind) || room.bytes < (done + 1) * walk.rules();
    let tests = [
        (23, words.len() < STEP_WORDS || ![SET, ADD, REMOVE].contains(&kind)),
        (24, [SET, REMOVE].contains(&kind) && !there),
        (25, kind == REMOVE && there && rows.iter().any(|other| row.is_parent_of(other))),
        (8, kind == ADD && rows.len() == MOST_ROWS),
        (9, left.is_some_and(|row| is_out_of_range(&row))),
        (10, kind == ADD && there),
        (11, kind == ADD && !row.is_root() && parent.is_none()),
        (26, kind == ADD && row.deep != parent.map_or(0, |parent| parent.deep + 1)),
        (12, left.is_some_and(|row| rows.iter().filter(is_twin).any(|old| is_equal(old, &row)))),
        (17, short),
    ];
    tests.into_iter().filter(|(_, fails)| *fails).map(|(number, _)| number).collect()
}

/// Words that are missing count as 0.
fn kind_and_row(words: &[u32]) -> (u32, Row) {
    let word = |place: usize| words.get(place).copied().unwrap_or(0);
    (word(0), Row::from_words([word(1), word(2), word(3), word(4), word(5), word(6)]))
}

fn is_same(row: &Row, other: &Row) -> bool {
    (row.device, row.at) == (other.device, other.at)
}

/// The row that is there after the step, if it is set or added.
fn row_left(rows: &[Row], kind: u32, row: Row) -> Option<Row> {
    match kind {
        SET => rows.iter().find(|old| is_same(old, &row)).map(|old| Row { value: row.value, ..*old }),
        ADD => Some(row),
        _ => None,
    }
}

pub fn is_out_of_range(row: &Row) -> bool {
    let is_name = |word: u32| word != 0 && word <= MOST_NAME;
    !is_name(row.device) || !is_name(row.at) || !is_name(row.name)
}

fn is_equal(row: &Row, other: &Row) -> bool {
    row.is_sibling_of(other) && (row.name, row.value) == (other.name, other.value)
}

/// The words of the table after the step; a removed row may leave any.
fn words_needed(rows: &[Row], kind: u32) -> usize {
    (rows.len() + (kind == ADD) as usize) * ROW_WORDS
}
