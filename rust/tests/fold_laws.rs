//! The laws between folding and the calls on the tables that it leaves.
#![cfg(all(
    feature = "lower",
    feature = "engine",
    feature = "parts",
    feature = "sets",
    feature = "trial",
    feature = "fold"
))]

use std::collections::HashSet;

use gabzeril_tests::answer::{Answer, Trial};
use gabzeril_tests::checker::{
    accepted_rule, check_table, equal_siblings, rows_of, with_pair_folded, words_of, Published, Row, ADD,
    MOST_NAME, ROW_WORDS, SET,
};
use gabzeril_tests::compare::{calls, run, Case};
use gabzeril_tests::demand3::{check_list, LIBRARY_ON_ONE_RULE, LIBRARY_ON_SETS};
use gabzeril_tests::ffi;
use gabzeril_tests::generate::*;
use gabzeril_tests::random::Random;

const LIMIT: Together = Together { rows: 24, cost: 4_000 };

/// Some root named 1 has the value 1.
const RULE: [u32; 8] = [6, 1, 0, 1, 7, 0, 1, 1];

const FEWER: &str = "fewer rows are left";
const AS_IT_WAS: &str = "a table that is accepted as it is";
const SEVERAL_ORDERS: &str = "two orders of pairs or more";
const EQUAL_ROOTS: &str = "two devices with an equal root";
const OTHER_ROOTS: &str = "two devices without equal roots";
const ADDED: &str = "an equal sibling added";
const ADDED_BETWEEN: &str = "an equal sibling added between other rows";
const BY_SET: &str = "a sibling set to an equal value";
const TRUE: &str = "true";
const FALSE: &str = "false";
const OTHER_BY_ROWS: &str = "by rows that are not folded, another verdict";
const SEVERAL: &str = "several devices of which rows go";

/// What the library leaves, in a buffer as long as the table.
fn folded(table: &[u32]) -> Vec<u32> {
    let mut folded = vec![7; table.len()];
    let Answer::Done(rows) = ffi::fold(table, &mut folded) else {
        panic!("{table:?} is not folded");
    };
    folded.truncate(rows * ROW_WORDS);
    folded
}

/// A folded table is accepted, and folding it again leaves it so; an accepted one comes through as it was.
#[test]
fn folded_tables() {
    let tally = run("folded_tables", 20_000, 20_000, |case| {
        let table = blocks(&mut case.random, 200);
        let left = folded(&table);
        let rows = left.len() / ROW_WORDS;
        let accepted = ffi::check_table(&left) == Answer::Done(rows);
        let stays = ffi::check_table(&table).number() != 0 || left == table;
        let same = accepted && stays && folded(&left) == left && keeps_words(&table, &left);
        case.compared(same, Answer::Done(rows), || format!("{table:?}: {left:?}"));
        case.note_met([(left.len() < table.len(), FEWER), (left == table && rows > 1, AS_IT_WAS)]);
    });
    tally.saw_noted(FEWER, 10_000);
    tally.saw_noted(AS_IT_WAS, 1_000);
}

/// Whether each row left has the words of the row with that at, but for its up. The first row always stays.
fn keeps_words(table: &[u32], left: &[u32]) -> bool {
    let (given, left) = (rows_of(table), rows_of(left));
    let kept = |row: &Row| given.iter().any(|old| Row { up: row.up, ..*old } == *row);
    given.first() == left.first() && left.iter().all(kept)
}

/// Whichever two equal siblings are folded next, the library's rows are left in the end.
#[test]
fn any_order_of_pairs() {
    let tally = run("any_order_of_pairs", 8_000, 16_000, |case| {
        let table = blocks(&mut case.random, 60);
        let left = folded(&table);
        for _ in 0..2 {
            let (rows, choices) = folded_in_any_order(&mut case.random, &table);
            case.note_met([(choices > 1, SEVERAL_ORDERS)]);
            case.compared(words_of(&rows) == left, Answer::Done(rows.len()), || {
                format!("{table:?}: {left:?}, in another order {rows:?}")
            });
        }
    });
    tally.saw_noted(SEVERAL_ORDERS, 5_000);
}

/// The rows left, and the most pairs that there were to choose from.
fn folded_in_any_order(random: &mut Random, table: &[u32]) -> (Vec<Row>, usize) {
    let (mut rows, mut choices) = (rows_of(table), 0);
    loop {
        let pairs: Vec<[usize; 2]> = equal_siblings(&rows).collect();
        choices = choices.max(pairs.len());
        if pairs.is_empty() {
            return (rows, choices);
        }
        rows = with_pair_folded(&rows, random.pick(&pairs));
    }
}

/// Roots of different devices are tested as before: two folded tables with an equal root meet 12, no others.
#[test]
fn joining() {
    let tally = run("joining_of_folded", 6_000, 6_000, |case| {
        let vocabulary = Vocabulary::new(&mut case.random);
        let [first, second] = [1, 2].map(|device| {
            let rows = case.random.between(1, 12);
            let shape = BlockShape::new(&mut case.random, rows);
            folded(&words_of(&blocks_of(&mut case.random, device, [&vocabulary; 2], shape)))
        });
        let roots: Vec<(u32, u32)> =
            rows_of(&first).iter().filter(|row| row.is_root()).map(|row| (row.name, row.value)).collect();
        let is_equal = |row: &Row| row.is_root() && roots.contains(&(row.name, row.value));
        let rows = first.len() / ROW_WORDS;
        let expected = match rows_of(&second).iter().position(is_equal) {
            Some(place) => Answer::refused(12, rows + place),
            None => Answer::Done(first.len() + second.len()),
        };
        case.note(if expected.number() == 12 { EQUAL_ROOTS } else { OTHER_ROOTS });
        let pool = [&first[..], &vec![7; second.len()]].concat();
        calls::join(case, &pool, first.len(), &second);
        assert_eq!(ffi::join(&mut pool.clone(), first.len(), &second), expected, "{first:?} {second:?}");
    });
    tally.saw_noted(EQUAL_ROOTS, 2_000);
    tally.saw_noted(OTHER_ROOTS, 1_000);
}

/// A step that would leave equal siblings meets 12, though folding would take them.
#[test]
fn steps_still_meet_12() {
    let tally = run("steps_on_folded", 8_000, 6_000, |case| {
        let table = blocks(&mut case.random, 40);
        let rows = rows_of(&folded(&table));
        let Some(step) = step_to_equal(case, &rows) else { return };
        let plan = Plan { set: Set::of(&[RULE]), pool: words_of(&rows), steps: step };
        let room = enough_room(&plan);
        let tried = calls::try_plan(case, &plan, room).expect("no refusal before the step");
        let expected = Trial { number: 12, place: 0, steps: 0, rows: rows.len() };
        assert_eq!(tried.answer(), expected, "{plan:?}");
    });
    tally.saw_each([12], 6_000);
    for what in [ADDED, ADDED_BETWEEN, BY_SET] {
        tally.saw_noted(what, 500);
    }
}

/// Adds a row with parent, name and value of another, anywhere behind the parent; or sets a row to the value of a
/// sibling of its name. None if no row can be so.
fn step_to_equal(case: &mut Case, rows: &[Row]) -> Option<Vec<u32>> {
    let random = &mut case.random;
    if random.chance(40) {
        let pairs = rows.iter().flat_map(|row| rows.iter().map(move |other| (row, other)));
        let is_such = |(row, other): &(&Row, &Row)| {
            row.at != other.at && row.name == other.name && row.is_sibling_of(other)
        };
        let pairs: Vec<(&Row, &Row)> = pairs.filter(is_such).collect();
        if !pairs.is_empty() {
            let (row, other) = random.pick(&pairs);
            case.note(BY_SET);
            return Some([&[SET], &Row { value: other.value, ..*row }.words()[..]].concat());
        }
    }
    let last = rows.last()?.at;
    let equal = random.pick(rows);
    let taken: HashSet<u32> = rows.iter().map(|row| row.at).collect();
    let free: Vec<u32> =
        (equal.up + 1..=(last + 3).min(MOST_NAME)).filter(|at| !taken.contains(at)).collect();
    if free.is_empty() {
        return None;
    }
    let at = random.pick(&free);
    case.note(if at < last { ADDED_BETWEEN } else { ADDED });
    Some([&[ADD], &Row { at, ..equal }.words()[..]].concat())
}

/// Dump and parts are both taken after the folding: demand 3 for folded devices.
#[test]
fn parts_of_folded_devices() {
    let tally = run("parts_of_folded", 6_000, 12_000, |case| {
        let (set, devices) = set_and_blocks(&mut case.random, LIMIT);
        let given: usize = devices.iter().map(Vec::len).sum();
        let devices: Vec<Vec<u32>> = devices.iter().map(|table| folded(table)).collect();
        let one = Set::of(&set.each()[..1]);
        for (calls, set) in [(LIBRARY_ON_SETS, &set), (LIBRARY_ON_ONE_RULE, &one)] {
            let result = check_list(&calls, &mut case.random, set, &devices);
            case.compared(result.is_ok(), Answer::Done(devices.len()), || {
                format!("{set:?} {devices:?}: {result:?}")
            });
        }
        case.note_met([(devices.concat().len() < given, FEWER)]);
    });
    tally.saw_noted(FEWER, 3_000);
}

/// The reason of the wish: on all rows as they were entered, document 004 gives each rule the verdict that the library
/// gives on the joined folded tables.
#[test]
fn published_truth() {
    let tally = run("published_truth", 6_000, 15_000, |case| {
        let (set, devices) = match case.random.chance(50) {
            true => set_and_blocks(&mut case.random, LIMIT),
            false => {
                let (rule, devices) = rule_and_blocks(&mut case.random, LIMIT);
                (Set::of(&[rule]), devices)
            }
        };
        let rows: Vec<Row> = devices.iter().flat_map(|table| rows_of(table)).collect();
        let published = Published::of(&rows);
        let pool = joined(&devices);
        let fewer = devices.iter().filter(|table| check_table(table).number() == 12).count();
        for rule in set.each() {
            let entries = accepted_rule(rule).expect("an accepted rule");
            let (truth, found) = (published.truth(&entries), ffi::verdict(rule, &pool));
            case.note_met([
                (truth, TRUE),
                (!truth, FALSE),
                (tells_rows_apart(rule, &rows), OTHER_BY_ROWS),
                (fewer > 0, FEWER),
                (fewer > 1, SEVERAL),
            ]);
            let expected = Answer::Done(truth as usize);
            case.compared(found == expected, expected, || {
                format!("{rule:?} {devices:?}: {expected:?}, found {found:?} on {pool:?}")
            });
        }
    });
    for what in [TRUE, FALSE, FEWER, SEVERAL] {
        tally.saw_noted(what, 5_000);
    }
    tally.saw_noted(OTHER_BY_ROWS, 1_500);
}

/// The folded tables one behind the other.
fn joined(devices: &[Vec<u32>]) -> Vec<u32> {
    let (mut pool, mut used) = (vec![7; devices.concat().len()], 0);
    for table in devices {
        let Answer::Done(words) = ffi::join(&mut pool, used, &folded(table)) else {
            panic!("{table:?} of {devices:?} does not join");
        };
        used = words;
    }
    pool.truncate(used);
    pool
}
