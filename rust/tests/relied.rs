//! Marks that can be relied on: with other values in unmarked rows, and all else kept, the verdict is the same.
#![cfg(feature = "engine")]

use gabzeril_tests::answer::Answer;
use gabzeril_tests::checker::{
    check_rule, marks, rows_of, verdict, LEAST_VALUE, MOST_ROWS, MOST_VALUE, ROW_WORDS,
};
use gabzeril_tests::compare::{calls, run, Case};
use gabzeril_tests::ffi;
use gabzeril_tests::generate::*;
use gabzeril_tests::random::Random;
use gabzeril_tests::relied::{check_pool, places_of, Calls, LIBRARY};

const LIMIT: Together = Together { rows: 24, cost: 3_000 };
/// The most that a verdict may take on a large table, and on one with another name or parent.
const MOST_COST: u64 = 30_000;

// What is asked of pools with an unmarked row.
const CHANGED: &str = "a pool with changed values";
const TRUE: &str = "a true rule, and changed values";
const FALSE: &str = "a false rule, and changed values";
const SEVERAL_CHANGES: &str = "a pool with several changes";
const ALL: &str = "all unmarked rows changed, several of them";
const SOME: &str = "some of the unmarked rows changed, several of them";
const ONE: &str = "one of several unmarked rows changed";
const OTHER_MARKS: &str = "other marks after a change";
const REFUSED: &str = "values drawn again, since siblings became equal";

// What new values are.
const KNOWN: &str = "a value of the pool as it was";
const BESIDE: &str = "one more than before, or one less";
const ACROSS_ZERO: &str = "the other one of 0 and -1";
const AN_END: &str = "the largest value or the least";

// What these pools are.
const SEVERAL_DEVICES: &str = "rows of several devices";
const BELOW_ZERO: &str = "a value below zero";
const OVER_ANY_NAME: &str = "a quantifier over any name";
const NOTHING_MARKED: &str = "no row marked";
const HUNDREDS: &str = "a hundred rows or more";
const LARGEST: &str = "as many rows as a table may have";

// What must be kept.
const BY_MARKED: &str = "turned by values of marked rows";
const BY_NAME: &str = "turned by the name of an unmarked row";
const BY_PARENT: &str = "turned by the parent of an unmarked row";

#[test]
fn unmarked_values_do_not_matter() {
    let tally = run("unmarked_values_do_not_matter", 120_000, 450_000, |case| {
        let (rule, pool) = any_rule_and_table(&mut case.random);
        one_pool(case, &rule, &pool);
    });
    tally.saw_each([12], 15_000);
    tally.saw_both_values(150_000);
    for (what, least) in [
        (CHANGED, 100_000),
        (TRUE, 40_000),
        (FALSE, 40_000),
        (SEVERAL_CHANGES, 60_000),
        (ALL, 80_000),
        (SOME, 30_000),
        (ONE, 50_000),
        (OTHER_MARKS, 4_000),
        (REFUSED, 5_000),
        (KNOWN, 80_000),
        (BESIDE, 80_000),
        (ACROSS_ZERO, 10_000),
        (AN_END, 50_000),
        (SEVERAL_DEVICES, 30_000),
        (BELOW_ZERO, 60_000),
        (OVER_ANY_NAME, 20_000),
        (NOTHING_MARKED, 5_000),
        (HUNDREDS, 150),
        (LARGEST, 20),
        (BY_MARKED, 3_000),
        (BY_NAME, 500),
        (BY_PARENT, 300),
    ] {
        tally.saw_noted(what, least);
    }
}

/// Of each kind, and few of those with many rows.
fn any_rule_and_table(random: &mut Random) -> (Vec<u32>, Vec<u32>) {
    match random.below(500) {
        0 => rule_and_many_rows(random),
        _ => rule_and_table(random),
    }
}

fn rule_and_table(random: &mut Random) -> (Vec<u32>, Vec<u32>) {
    match random.below(40) {
        0..15 => rule_and_pool(random, LIMIT),
        15..20 => {
            let (rule, devices) = rule_and_devices(random, LIMIT);
            (rule, devices.concat())
        }
        20..24 => rule_and_siblings(random, LIMIT),
        24 => rule_and_signs(random, LIMIT),
        25..28 => rule_and_any_names(random, LIMIT),
        28..30 => {
            let rows = random.between(1, 30);
            rule_and_deep_rows(random, rows, LIMIT.cost)
        }
        30..34 => rule_and_roots(random, LIMIT.cost),
        _ => nested_rule_and_some_rows(random),
    }
}

/// The rules that are too nested are left out. Some of the others are over any name.
fn nested_rule_and_some_rows(random: &mut Random) -> (Vec<u32>, Vec<u32>) {
    loop {
        let (rule, table) = nested_rule_and_table(random, LIMIT.cost);
        let percent = random.pick(&[0, 0, 30]);
        let rule = widened(random, &rule.words, percent);
        let accepted = check_rule(&rule).number() == 0 && !table.is_empty();
        if accepted && verdict_cost(&rule, &table) <= MOST_COST {
            return (rule, table);
        }
    }
}

fn rule_and_many_rows(random: &mut Random) -> (Vec<u32>, Vec<u32>) {
    if random.chance(50) {
        let rows = random.pick(&[100, 300, 700, MOST_ROWS]);
        return rule_and_deep_rows(random, rows, MOST_COST);
    }
    loop {
        let (rule, pool) = rule_and_pool(random, Together { rows: MOST_ROWS, cost: MOST_COST });
        if pool.len() >= 100 * ROW_WORDS {
            return (rule, pool);
        }
    }
}

/// The claim for the library; verdicts and marks are the checker's.
fn one_pool(case: &mut Case, rule: &[u32], pool: &[u32]) {
    let held = check_pool(LIBRARY, &mut case.random, rule, pool);
    let held = held.unwrap_or_else(|fault| panic!("{rule:?} {pool:?}: {fault}"));
    let (before, marks) = marked(rule, pool);
    let same = (before, &marks) == (held.verdict, &held.marks) && before == verdict(rule, pool);
    case.compared(same, before, || format!("{rule:?} {pool:?}: {before:?} {marks:?}, found {held:?}"));
    for change in &held.changes.accepted {
        let after = verdict(rule, &change.table);
        case.compared(after == held.verdict, after, || format!("{rule:?} {pool:?}: {before:?}, {change:?}"));
    }
    for table in held.changes.refused.iter().take(1) {
        calls::verdict(case, rule, table);
    }
    if held.changes.accepted.is_empty() {
        return;
    }
    note_pool(case, rule, pool, &marks);
    note_changes(case, rule, before, &marks, &held.changes);
    note_values(case, pool, &held.changes);
    if case.random.chance(50) {
        note_what_is_kept(case, rule, pool, before, &marks);
    }
}

/// The checker's answer and marks. Rule and pool are accepted.
fn marked(rule: &[u32], pool: &[u32]) -> (Answer, Vec<u8>) {
    let mut bytes = vec![7; pool.len() / ROW_WORDS];
    (marks(rule, pool, &mut bytes), bytes)
}

fn note_pool(case: &mut Case, rule: &[u32], pool: &[u32], marks: &[u8]) {
    let rows = rows_of(pool);
    case.note_met([
        (rows.iter().any(|row| row.device != rows[0].device), SEVERAL_DEVICES),
        (rows.iter().any(|row| row.value >= LEAST_VALUE), BELOW_ZERO),
        (has_any_name(rule), OVER_ANY_NAME),
        (!marks.contains(&1), NOTHING_MARKED),
        (rows.len() >= 100, HUNDREDS),
        (rows.len() == MOST_ROWS, LARGEST),
    ]);
}

fn note_changes(case: &mut Case, rule: &[u32], before: Answer, marks: &[u8], changes: &Changes) {
    let unmarked = places_of(marks, 0).len();
    // The marks that can be relied on are those of the first table.
    let others = marked(rule, &changes.accepted[0].table).1 != marks;
    case.note_met([
        (true, CHANGED),
        (before == Answer::Done(1), TRUE),
        (before == Answer::Done(0), FALSE),
        (changes.accepted.len() > 1, SEVERAL_CHANGES),
        (others, OTHER_MARKS),
    ]);
    for change in &changes.accepted {
        let changed = change.places.len();
        case.note_met([
            (changed == unmarked && changed > 1, ALL),
            (changed < unmarked && changed > 1, SOME),
            (changed < unmarked && changed == 1, ONE),
        ]);
    }
}

fn note_values(case: &mut Case, pool: &[u32], changes: &Changes) {
    case.note_met([(!changes.refused.is_empty(), REFUSED)]);
    let old = rows_of(pool);
    for change in &changes.accepted {
        let new = rows_of(&change.table);
        let any = |is: &dyn Fn(u32, u32) -> bool| {
            change.places.iter().any(|&place| is(old[place].value, new[place].value))
        };
        case.note_met([
            (any(&|_, new| old.iter().any(|row| row.value == new)), KNOWN),
            (any(&|old, new| [1, u32::MAX].contains(&new.wrapping_sub(old))), BESIDE),
            (any(&|old, new| [[0, u32::MAX], [u32::MAX, 0]].contains(&[old, new])), ACROSS_ZERO),
            (any(&|_, new| [LEAST_VALUE, MOST_VALUE].contains(&new)), AN_END),
        ]);
    }
}

/// Other values of marked rows, another name or another parent of an unmarked one may turn the verdict round.
fn note_what_is_kept(case: &mut Case, rule: &[u32], pool: &[u32], before: Answer, marks: &[u8]) {
    let random = &mut case.random;
    let [unmarked, marked] = [0, 1].map(|mark| places_of(marks, mark));
    let place = random.pick(&unmarked);
    let by_marked = with_other_values(random, rule, pool, &marked);
    let by_name = with_other_name(random, rule, pool, place);
    let by_parent = with_other_parent(random, pool, place).unwrap_or_default();
    for (table, what) in [(by_marked, BY_MARKED), (by_name, BY_NAME), (by_parent, BY_PARENT)] {
        if table.is_empty() || verdict_cost(rule, &table) > MOST_COST {
            continue;
        }
        calls::verdict(case, rule, &table);
        let after = verdict(rule, &table);
        case.note_met([(after.number() == 0 && after != before, what)]);
    }
}

/// What is noted where another marking is asked, and where the values that it leaves unmarked turn the verdict.
fn asked(other: OtherMarking) -> String {
    format!("other rows marked by {other:?}")
}
fn turned(other: OtherMarking) -> String {
    format!("turned by values that {other:?} leaves unmarked")
}

/// The same is asked of other markings, with the library's verdicts. It must not hold for those of too few rows.
#[test]
fn other_markings() {
    let tally = run("other_markings", 30_000, 8_000, |case| {
        let (rule, pool) = rule_and_table(&mut case.random);
        let before = marked(&rule, &pool);
        for other in OtherMarking::TOO_FEW {
            let held = asked_of(case, other, &rule, &pool, &before);
            case.note_met([(held.is_err(), &turned(other))]);
        }
        for other in OtherMarking::ENOUGH {
            let held = asked_of(case, other, &rule, &pool, &before);
            case.compared(held.is_ok(), before.0, || format!("{other:?} {rule:?} {pool:?}: {held:?}"));
        }
    });
    for other in OtherMarking::TOO_FEW {
        tally.saw_noted(&turned(other), 200);
    }
    for other in OtherMarking::TOO_FEW.into_iter().chain(OtherMarking::ENOUGH) {
        tally.saw_noted(&asked(other), 1_000);
    }
}

/// With some changes, where the marks are not the contract's.
fn asked_of(
    case: &mut Case,
    other: OtherMarking,
    rule: &[u32],
    pool: &[u32],
    before: &(Answer, Vec<u8>),
) -> Result<(), String> {
    let marks = |rule: &[u32], pool: &[u32], marks: &mut [u8]| other.marks(rule, pool, marks);
    let mut bytes = vec![7; pool.len() / ROW_WORDS];
    if (marks(rule, pool, &mut bytes), &bytes) == (before.0, &before.1) {
        return Ok(());
    }
    case.note(asked(other));
    let calls = Calls { marks: &marks, ..LIBRARY };
    (0..4).try_for_each(|_| check_pool(calls, &mut case.random, rule, pool).map(drop))
}

/// Every device's VTP mode is client: every root named 1, every row named 2 under it equals 1.
const ALL_CLIENTS: [u32; 12] = [5, 1, 0, 1, 5, 2, 1, 2, 7, 1, 1, 1];

/// A client with an interface, which has an MTU; device and mode are marked.
const CLIENT: [u32; 24] = [1, 1, 0, 0, 1, 11, 1, 2, 1, 1, 2, 1, 1, 3, 1, 1, 3, 5, 1, 4, 3, 2, 2, 9];

/// The client with this row's column changed.
fn client_with(row: usize, column: usize, word: u32) -> [u32; 24] {
    let mut table = CLIENT;
    table[ROW_WORDS * row + column] = word;
    table
}

fn on_clients(table: &[u32]) -> (Answer, [u8; 4]) {
    let mut marks = [7; 4];
    let answer = ffi::marks(&ALL_CLIENTS, table, &mut marks);
    assert_eq!(ffi::verdict(&ALL_CLIENTS, table), answer);
    (answer, marks)
}

/// Interface and MTU may have any values, not any name and any parent.
#[test]
fn a_rule_about_modes_alone() {
    let kept = (Answer::Done(1), [1, 1, 0, 0]);
    assert_eq!(on_clients(&CLIENT), kept);
    for value in [0, 1, 2, 5, MOST_VALUE, LEAST_VALUE, u32::MAX] {
        for row in [2, 3] {
            assert_eq!(on_clients(&client_with(row, 5, value)), kept, "{row} {value}");
        }
    }
    let turned = (Answer::Done(0), [1, 0, 1, 0]);
    assert_eq!(on_clients(&client_with(2, 4, 2)), turned, "the interface as a mode");
    let mut table = client_with(3, 2, 1);
    table[3 * ROW_WORDS + 3] = 1;
    assert_eq!(on_clients(&table), (Answer::Done(0), [1, 0, 0, 1]), "what hung under it as a mode");
    assert_eq!(on_clients(&client_with(1, 5, 2)), (Answer::Done(0), [1, 1, 0, 0]), "a marked value");
}

/// Rule (i) of the manual. No row of the server but its root is marked; once it is a client, other rows are.
#[test]
fn marks_are_those_of_the_first_table() {
    let one_server: [[u32; 4]; 9] = [
        [5, 1, 0, 1],
        [4, 2, 4, 0],
        [6, 3, 1, 2],
        [7, 1, 1, 2],
        [5, 5, 0, 1],
        [4, 6, 8, 0],
        [6, 7, 2, 2],
        [7, 2, 1, 2],
        [7, 0, 0, 1],
    ];
    let pool = |mode, interface| {
        let server = [1, 1, 0, 0, 1, 11, 1, 2, 1, 1, 2, mode, 1, 3, 1, 1, 3, interface];
        [&server[..], &[2, 1, 0, 0, 1, 12, 2, 2, 1, 1, 2, 1]].concat()
    };
    let on = |pool: &[u32]| {
        let mut marks = [7; 5];
        (ffi::marks(&one_server.concat(), pool, &mut marks), marks)
    };
    assert_eq!(on(&pool(2, 1)), (Answer::Done(1), [1, 0, 0, 1, 1]));
    for (mode, interface) in [(1, 1), (3, 2), (u32::MAX, LEAST_VALUE)] {
        assert_eq!(on(&pool(mode, interface)), (Answer::Done(1), [1, 1, 0, 1, 1]), "{mode} {interface}");
    }
}
