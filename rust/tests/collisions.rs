//! Tables in which so many rows share one hash that the library compares all earlier rows.
#![cfg(all(feature = "lower", feature = "engine"))]

use gabzeril_tests::checker::{check_table, rows_of, Row, POOL, ROW_WORDS};
use gabzeril_tests::compare::{calls, run, Case};
use gabzeril_tests::generate::*;
use std::fs;
use std::path::Path;

/// Every root has a child above it; some root has a child below another root.
const RULES: [&[u32]; 2] =
    [&[5, 1, 0, 1, 6, 2, 1, 2, 8, 0, 0, 1], &[6, 1, 0, 1, 6, 2, 1, 1, 6, 3, 0, 2, 8, 1, 0, 2]];

// More than eight rows of the hash stand before the deciding row. What is looked for is its parent, or an
// equal sibling: near, so that the library's steps find it; or the next, or further, so that they do not.
const PARENT: [&str; 3] =
    ["26, the parent within eight rows", "26, the parent the ninth row", "26, the parent further"];
const SIBLING: [&str; 3] =
    ["12, the sibling within eight rows", "12, the sibling the ninth row", "12, the sibling further"];
const NO_PARENT: &str = "11, no parent among more than eight rows";
const ACCEPTED_PARENT: &str = "accepted, a parent not within eight rows";
const ACCEPTED_SIBLING: &str = "accepted, no sibling among more than eight rows";
const EQUAL: &str = "a row of an accepted table has the name and value of one that is no sibling";
const EQUAL_AND_NAME: &str = "and the name of a sibling";
const EQUAL_AND_VALUE: &str = "and the value of a sibling";
const HUNDREDS: &str = "more than 768 rows of the hash before the deciding row";

const FIRST: &str = "26, the parent is the first row of the device";
const LAST: &str = "26, the parent is the row before, not the first of the device";
const BETWEEN: &str = "26, the parent is another row";
const OTHER_DEVICE: &str = "11, though a row of another device has that at and hash";
const BEHIND: &str = "11 behind 26";
const NOT_BEHIND: &str = "11 before 26, or in the same row";

/// With another formula the tables here would have nothing rare, and no comparison would tell.
#[test]
fn the_hash_is_the_librarys() {
    let source = |name: &str| {
        let file = Path::new(env!("CARGO_MANIFEST_DIR")).join("../crates/tables/src").join(name);
        fs::read_to_string(file).expect("the library's source")
    };
    let hashes = source("hashes.rt");
    for factor in FACTORS {
        assert!(hashes.contains(&format!(" * {factor}")), "the library does not multiply by {factor}");
    }
    let links = source("links.rt");
    assert!(links.contains(&format!("MOST_STEPS: usize = {STEPS};")), "the library takes other steps");
}

/// Which fault is found, and where, is also told by the way in which the table was made.
#[test]
fn checks() {
    let tally = run("checks_of_collisions", 8_000, 32_000, |case| {
        let accepted = colliding_rows(&mut case.random);
        let table = damaged_collisions(&mut case.random, &accepted);
        note(case, &table);
        calls::check_table(case, &table.words);
        let device = case.random.pick(&rows_of(&table.words)).device;
        calls::device_rows(case, &table.words, device);
        let rule = case.random.pick(&RULES);
        calls::verdict(case, rule, &table.words);
        let written = POOL.text_of(&table.words).len();
        let length = mostly_enough(&mut case.random, written, written);
        let output = case.random.bytes(length);
        calls::write_pool(case, &table.words, &output);
    });
    // Each table has three answers with a number, and that of device_rows.
    tally.saw_each([0], 10_000);
    tally.saw_each([11, 26, 12], 2_500);
    tally.saw_both_values(1_000);
    for what in [ACCEPTED_PARENT, ACCEPTED_SIBLING, NO_PARENT] {
        tally.saw_noted(what, 500);
    }
    tally.saw_noted(EQUAL, 2_000);
    for what in [EQUAL_AND_NAME, EQUAL_AND_VALUE] {
        tally.saw_noted(what, 25);
    }
    for what in [PARENT, SIBLING] {
        let [near, ninth, further] = what;
        tally.saw_noted(near, 100);
        tally.saw_noted(ninth, 15);
        tally.saw_noted(further, 150);
    }
    for what in [FIRST, LAST, BETWEEN, BEHIND, NOT_BEHIND] {
        tally.saw_noted(what, 200);
    }
    tally.saw_noted(OTHER_DEVICE, 50);
    tally.saw_noted(HUNDREDS, 4);
}

/// Each table is mostly accepted alone; most often a root of the second is equal to one of the first.
#[test]
fn joining() {
    let tally = run("joining_of_collisions", 3_000, 3_000, |case| {
        let (joined, cut) = two_colliding_tables(&mut case.random);
        let (first, second) = joined.words.split_at(cut * ROW_WORDS);
        let (mut first, mut second) = (first.to_vec(), second.to_vec());
        match case.random.below(10) {
            0 => first = damaged_collisions(&mut case.random, &first).words,
            1 => second = damaged_collisions(&mut case.random, &second).words,
            _ => {
                note(case, &joined);
                assert!([&first, &second].into_iter().all(|table| check_table(table).number() == 0));
            }
        }
        let words = first.len() + second.len();
        let length = mostly_enough(&mut case.random, words + ROW_WORDS, words).max(first.len());
        let room = case.random.words(length - first.len());
        calls::join(case, &[&first[..], &room].concat(), first.len(), &second);
    });
    tally.saw_each([12], 1_000);
    tally.saw_each([0], 300);
    tally.saw_each([11, 26], 50);
    tally.saw_each([17], 20);
    tally.saw_noted(ACCEPTED_SIBLING, 300);
    let [near, ninth, further] = SIBLING;
    tally.saw_noted(near, 100);
    tally.saw_noted(ninth, 10);
    tally.saw_noted(further, 300);
}

fn note(case: &mut Case, table: &KnownTable) {
    assert_eq!(check_table(&table.words), table.check(), "{table:?}");
    let rows = rows_of(&table.words);
    match table.faults.first() {
        None => note_accepted(case, &rows),
        Some(&(11, place)) => note_no_parent(case, &rows, place),
        Some(&(26, place)) => note_wrong_depth(case, &rows, place),
        Some(&(_, place)) => note_links(case, &Links::to_siblings(&rows, place), SIBLING),
    }
    if let (Some(no_parent), Some(wrong)) = (table.place_of(11), table.place_of(26)) {
        case.note(if no_parent > wrong { BEHIND } else { NOT_BEHIND });
    }
}

fn note_accepted(case: &mut Case, rows: &[Row]) {
    if (0..rows.len()).any(|place| Links::to_parents(rows, place).go_on()) {
        case.note(ACCEPTED_PARENT);
    }
    if (0..rows.len()).any(|place| Links::to_siblings(rows, place).go_on()) {
        case.note(ACCEPTED_SIBLING);
    }
    (0..rows.len()).for_each(|place| note_resemblance(case, rows, place));
}

/// Notes what of the rows that are all compared with this one resembles it, though nothing is equal.
fn note_resemblance(case: &mut Case, rows: &[Row], place: usize) {
    let row = rows[place];
    let is_linked = |&earlier: &usize| twin_hash(&rows[earlier]) == twin_hash(&row);
    let Some(end) = (0..place).rev().filter(is_linked).nth(STEPS) else {
        return;
    };
    let siblings = || rows[..=end].iter().filter(|earlier| earlier.is_sibling_of(&row));
    if rows[..=end].iter().any(|earlier| (earlier.name, earlier.value) == (row.name, row.value)) {
        case.note(EQUAL);
        if siblings().any(|sibling| sibling.name == row.name) {
            case.note(EQUAL_AND_NAME);
        }
        if siblings().any(|sibling| sibling.value == row.value) {
            case.note(EQUAL_AND_VALUE);
        }
    }
}

fn note_no_parent(case: &mut Case, rows: &[Row], place: usize) {
    note_links(case, &Links::to_parents(rows, place), [NO_PARENT; 3]);
    let row = rows[place];
    if rows[..place].iter().any(|earlier| earlier.at == row.up && may_be_parent(earlier, &row)) {
        case.note(OTHER_DEVICE);
    }
}

fn note_wrong_depth(case: &mut Case, rows: &[Row], place: usize) {
    note_links(case, &Links::to_parents(rows, place), PARENT);
    if let Some(parent) = (0..place).find(|&earlier| rows[earlier].is_parent_of(&rows[place])) {
        let is_first = parent == 0 || rows[parent - 1].device != rows[parent].device;
        case.note(match parent + 1 == place {
            _ if is_first => FIRST,
            true => LAST,
            false => BETWEEN,
        });
    }
}

fn note_links(case: &mut Case, links: &Links, [near, next, further]: [&'static str; 3]) {
    if links.all > STEPS {
        case.note(match links.nearer {
            ..STEPS => near,
            STEPS => next,
            _ => further,
        });
    }
    if links.all > 768 {
        case.note(HUNDREDS);
    }
}

/// The earlier rows with the hash of what is looked for.
struct Links {
    all: usize,
    /// Those behind the one that is looked for; all if it is not there.
    nearer: usize,
}

impl Links {
    fn new(earlier: &[Row], is_linked: impl Fn(&Row) -> bool, is_sought: impl Fn(&Row) -> bool) -> Links {
        let linked: Vec<&Row> = earlier.iter().filter(|earlier| is_linked(earlier)).collect();
        let nearer = linked.iter().rev().take_while(|earlier| !is_sought(earlier)).count();
        Links { all: linked.len(), nearer }
    }

    /// None for a root.
    fn to_parents(rows: &[Row], place: usize) -> Links {
        let row = rows[place];
        let is_linked = |earlier: &Row| !row.is_root() && may_be_parent(earlier, &row);
        Links::new(&rows[..place], is_linked, |earlier| earlier.is_parent_of(&row))
    }

    fn to_siblings(rows: &[Row], place: usize) -> Links {
        let row = rows[place];
        let is_equal = |earlier: &Row| {
            (earlier.name, earlier.value) == (row.name, row.value) && earlier.is_sibling_of(&row)
        };
        Links::new(&rows[..place], |earlier| twin_hash(earlier) == twin_hash(&row), is_equal)
    }

    /// Whether the library compares all earlier rows.
    fn go_on(&self) -> bool {
        self.all > STEPS && self.nearer >= STEPS
    }
}

/// By the hash alone.
fn may_be_parent(earlier: &Row, row: &Row) -> bool {
    place_hash(earlier.device, earlier.at) == place_hash(row.device, row.up)
}
