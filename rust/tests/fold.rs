//! Folding: requests of every kind, and foldings that are not the contract's.
#![cfg(feature = "fold")]

use gabzeril_tests::answer::Answer;
use gabzeril_tests::checker::{self, words_of, Row, MOST_ROWS, ROW_WORDS};
use gabzeril_tests::compare::archive::*;
use gabzeril_tests::compare::fillings::alone;
use gabzeril_tests::compare::fold::*;
use gabzeril_tests::compare::refused_step::before;
use gabzeril_tests::compare::{calls, run, Case};
use gabzeril_tests::ffi;
use gabzeril_tests::generate::*;
use gabzeril_tests::random::Random;

const KNOWN: &str = "a fault that is told by the way in which the table was made";

/// How often at least each is noted.
const NOTED: [(&str, u64); 34] = [
    (NOTHING_FOLDS, 1_000),
    (FOLDS, 1_000),
    (BECOMES_EQUAL, 1_000),
    (THREE_LEVELS, 1_000),
    (SIX_LEVELS, 500),
    (EQUAL_ROOTS, 1_000),
    (THREE_EQUAL, 1_000),
    (TEN_EQUAL, 1_000),
    (ONE_PATH, 1_000),
    (MOVED, 1_000),
    (MOVED_WITH_OTHERS, 1_000),
    (MOVED_FAR, 100),
    (OTHER_VALUES, 1_000),
    (OTHER_NAMES, 1_000),
    (COUSINS, 1_000),
    (ONE_HASH, 500),
    (HUNDREDS, 70),
    (MOST, 40),
    (SHORTER_THAN_GIVEN, 1_000),
    (NO_ROWS, 500),
    (NO_WORDS, 200),
    (ONE_ROW, 500),
    (JUST_FITS, 1_000),
    (ROOM_BEHIND, 1_000),
    (ODD_ROOM, 1_000),
    (MUCH_ROOM, 1_000),
    (NO_ROOM, 1_000),
    (A_WORD_SHORT, 1_000),
    (A_ROW_SHORT, 1_000),
    (TOO_MANY, 100),
    (LAST_ROW, 500),
    (BEHIND_EQUAL, 1_000),
    (EQUAL_BEHIND, 1_000),
    (KNOWN, 1_000),
];

/// Number, place, value and every word of both buffers, and of what lies around them.
#[test]
fn requests() {
    let tally = run("fold", 40_000, 110_000, |case| {
        let table = any_request(case, MOST_ROWS);
        let left = words_left(&table);
        // The checker takes long for many rows.
        for _ in 0..if table.len() < 100 * ROW_WORDS { 3 } else { 1 } {
            in_some_room(case, &table, left);
        }
    });
    tally.saw_each([0], 40_000);
    tally.saw_each(CHECKS, 3_000);
    for (what, least) in NOTED {
        tally.saw_noted(what, least);
    }
    for (place, &first) in CHECKS.iter().enumerate() {
        tally.saw_noted(&alone(first), 500);
        tally.saw_noted(&before(first, 12), 500);
        CHECKS[place + 1..].iter().for_each(|&later| tally.saw_noted(&before(first, later), 100));
    }
}

/// Blocks of up to so many rows, and in every third case with faults.
fn any_request(case: &mut Case, most: usize) -> Vec<u32> {
    let random = &mut case.random;
    if random.chance(1) {
        return too_many_blocks(random);
    }
    let table = blocks(random, most);
    match random.below(12) {
        0..=2 => {
            let damaged = damaged_blocks(random, &table);
            case.note_met([(is_told(&damaged), KNOWN)]);
            damaged.words
        }
        3 => any_damaged_blocks(random, &table),
        _ => table,
    }
}

/// Whether a fault was put in; fails if the checker does not find it.
fn is_told(table: &KnownTable) -> bool {
    if let Answer::Refused(refusal) = table.check() {
        let found = checker::fold(&table.words, &mut vec![0; table.words.len()]);
        assert_eq!(found, Answer::Refused(refusal), "{table:?}");
    }
    !table.faults.is_empty()
}

/// The words of what is left, or of the given table if it is refused.
fn words_left(table: &[u32]) -> usize {
    match checker::fold(table, &mut vec![0; table.len()]) {
        Answer::Done(rows) => rows * ROW_WORDS,
        _ => table.len(),
    }
}

/// Around what is left, what is given, or a row less.
fn some_room(random: &mut Random, table: &[u32], left: usize) -> usize {
    match random.below(10) {
        0 => one_length_around(random, table.len()),
        1 => random.between(left.min(table.len()), table.len()),
        2 => left.saturating_sub(ROW_WORDS),
        3 => random.below(ROW_WORDS),
        _ => one_length_around(random, left),
    }
}

fn in_some_room(case: &mut Case, table: &[u32], left: usize) {
    let room = some_room(&mut case.random, table, left);
    let output = case.random.words(room);
    calls::fold(case, table, &output);
    note_request(case, table, room, ffi::fold(table, &mut output.clone()));
}

/// What is noted where another folding would answer or write otherwise.
fn told_apart(other: OtherFolding) -> String {
    format!("told apart from {other:?}")
}

/// Requests as above tell the library from every other folding.
#[test]
fn other_foldings() {
    let tally = run("other_foldings", 20_000, 20_000, |case| {
        let table = any_request(case, 60);
        let room = some_room(&mut case.random, &table, words_left(&table));
        let output = case.random.words(room);
        calls::fold(case, &table, &output);
        let mut found = output.clone();
        let answer = ffi::fold(&table, &mut found);
        for &other in OtherFolding::ALL {
            let mut others = output.clone();
            let same = other.fold(&table, &mut others) == answer && others == found;
            case.note_met([(!same, &told_apart(other))]);
        }
    });
    OtherFolding::ALL.iter().for_each(|&other| tally.saw_noted(&told_apart(other), 100));
}

/// Every table of up to six rows with one name and two values, whatever hangs under which.
#[test]
fn every_small_table() {
    run("every_small_table", 1, 50_000, |case| {
        let mut tables: Vec<Vec<Row>> = vec![vec![]];
        for at in 1..=6 {
            tables = tables.iter().flat_map(|rows| longer_by_a_row(rows, at)).collect();
            for table in tables.iter().map(|rows| words_of(rows)) {
                let room = words_left(&table) + at as usize % 2;
                calls::fold(case, &table, &vec![7; room]);
            }
        }
    });
}

fn longer_by_a_row(rows: &[Row], at: u32) -> Vec<Vec<Row>> {
    let choices = (0..at).flat_map(|up| [(up, 0), (up, 1)]);
    let row = |(up, value): (u32, u32)| {
        let deep = rows.iter().find(|row| row.at == up).map_or(0, |parent| parent.deep + 1);
        [rows, &[Row { device: 1, at, up, deep, name: 1, value }]].concat()
    };
    choices.map(row).collect()
}

/// Every number of words of a table worked by hand and every room; an empty run as NULL and as a pointer.
#[test]
fn every_length() {
    const TABLE: [[u32; 6]; 7] = [
        [9, 1, 0, 0, 1, 5],
        [9, 2, 0, 0, 1, 5],
        [9, 3, 1, 1, 2, 6],
        [9, 4, 2, 1, 2, 6],
        [9, 5, 4, 2, 3, 7],
        [9, 6, 2, 1, 2, 8],
        [9, 7, 0, 0, 1, 5],
    ];
    /// Of the first rows of the table, so many are left.
    const LEFT: [usize; 8] = [0, 1, 1, 2, 2, 3, 4, 4];
    const FOLDED: [[u32; 6]; 4] =
        [[9, 1, 0, 0, 1, 5], [9, 3, 1, 1, 2, 6], [9, 5, 3, 2, 3, 7], [9, 6, 1, 1, 2, 8]];
    let (table, folded) = (TABLE.concat(), FOLDED.concat());
    for (words, room) in (0..=table.len()).flat_map(|words| (0..=50).map(move |room| (words, room))) {
        let left = LEFT[words / ROW_WORDS];
        let expected = match words % ROW_WORDS {
            0 if left * ROW_WORDS <= room => Answer::Done(left),
            0 => Answer::refused(17, 0),
            _ => Answer::refused(8, 0),
        };
        let written = if expected.number() == 0 { left * ROW_WORDS } else { 0 };
        for null in [false, true] {
            ffi::null_for_empty(null);
            let mut output = vec![7; room];
            assert_eq!(ffi::fold(&table[..words], &mut output), expected, "{words} in {room}");
            let (answer, past) = output.split_at(written);
            assert!(answer == &folded[..written] && past.iter().all(|&word| word == 7), "{output:?}");
        }
    }
    ffi::null_for_empty(false);
}
