//! The laws between the calls on a set of rules and those on one rule.
#![cfg(all(feature = "lower", feature = "engine", feature = "parts", feature = "sets"))]

use gabzeril_tests::answer::Answer;
use gabzeril_tests::checker::{rows_of, ENTRY_WORDS, ROW_WORDS};
use gabzeril_tests::compare::{run, Case};
use gabzeril_tests::ffi;
use gabzeril_tests::generate::*;

const BOTH_VERDICTS: &str = "true and false rules in a set";
const SPARE: &str = "a full part without some rows of the branch part";
const MORE_THAN_UNION: &str = "a full part with rows that are in no rule's full part";
const SEVERAL: &str = "a conjunction of several rules";

#[test]
fn sets_of_one_rule() {
    let limit = Together { rows: 30, cost: 10_000 };
    let tally = run("sets_of_one_rule", 15_000, 30_000, |case| {
        let random = &mut case.random;
        let (mut rule, devices) = rule_and_devices(random, limit);
        let mut table = one_or_several(random, &devices);
        if random.chance(50) {
            (rule, table) = damaged_together(random, rule, table);
        }
        // A leftover word is 20 in a set, and 1 in a rule.
        rule.truncate(rule.len() / ENTRY_WORDS * ENTRY_WORDS);
        if verdict_cost(&rule, &table).max(reading_cost(&rule, &table)) <= 10 * limit.cost {
            one_rule(case, &rule, &table);
        }
    });
    tally.saw_each([0], 10_000);
    tally.saw_each(RULE_FAULTS, 100);
    tally.saw_each(TABLE_FAULTS, 100);
    tally.saw_each([13, 14, 17], 100);
}

fn one_rule(case: &mut Case, rule: &[u32], table: &[u32]) {
    let counts = [(rule.len() / ENTRY_WORDS) as u32];
    let (set, single) = (ffi::check_set(rule, &counts), ffi::check_rule(rule));
    let same = set == with_value(single, |_| 1);
    case.compared(same, single, || format!("{rule:?}: {single:?}, as a set {set:?}"));

    let length = case.random.between(1, 3);
    let mut verdicts = case.random.bytes(length);
    let (mut expected, single) = (verdicts.clone(), ffi::verdict(rule, table));
    if let Answer::Done(verdict) = single {
        expected[0] = verdict as u8;
    }
    let set = ffi::set_verdicts(rule, &counts, table, &mut verdicts);
    let same = set == with_value(single, |_| 1) && verdicts == expected;
    case.compared(same, single, || format!("{rule:?} {table:?}: {single:?}, as a set {set:?} {verdicts:?}"));

    let mode = if case.random.chance(90) {
        case.random.between(1, 3) as u32
    } else {
        unknown_mode(&mut case.random)
    };
    let length = mostly_enough(&mut case.random, table.len(), words_sent(rule, table, mode));
    let mut part = case.random.words(length);
    let mut expected = part.clone();
    let single = ffi::part(rule, table, mode, &mut expected);
    let set = ffi::set_part(rule, &counts, table, mode, &mut part);
    case.compared(set == single && part == expected, single, || {
        format!("{rule:?} {table:?} {mode}: {single:?} {expected:?}, as a set {set:?} {part:?}")
    });
}

fn with_value(answer: Answer, value: impl Fn(usize) -> usize) -> Answer {
    match answer {
        Answer::Done(single) => Answer::Done(value(single)),
        refused => refused,
    }
}

/// Each byte is the verdict of its rule. The branch part is the union of the rules' branch parts; the full part
/// contains that of their full parts.
#[test]
fn laws() {
    let limit = Together { rows: 40, cost: 20_000 };
    let tally = run("laws_of_sets", 10_000, 40_000, |case| {
        let (set, devices) = set_and_devices(&mut case.random, limit);
        verdicts_are_the_rules(case, &set, &devices.concat());
        for device in devices {
            parts_are_the_rules(case, &set, &device);
        }
    });
    tally.saw_noted(BOTH_VERDICTS, 3_000);
    tally.saw_noted(MORE_THAN_UNION, 100);
}

fn verdicts_are_the_rules(case: &mut Case, set: &Set, pool: &[u32]) {
    let mut verdicts = case.random.bytes(set.counts.len());
    let answer = ffi::set_verdicts(&set.rules, &set.counts, pool, &mut verdicts);
    let singles: Vec<Answer> = set.each().into_iter().map(|rule| ffi::verdict(rule, pool)).collect();
    let bytes: Vec<Answer> = verdicts.iter().map(|&byte| Answer::Done(byte.into())).collect();
    if bytes.contains(&Answer::Done(0)) && bytes.contains(&Answer::Done(1)) {
        case.note(BOTH_VERDICTS);
    }
    let same = answer == Answer::Done(set.counts.len()) && bytes == singles;
    case.compared(same, answer, || format!("{set:?} {pool:?}: {singles:?}, found {answer:?} {verdicts:?}"));
}

fn parts_are_the_rules(case: &mut Case, set: &Set, device: &[u32]) {
    for mode in 1..=3 {
        let mut part = vec![0; device.len()];
        let answer = ffi::set_part(&set.rules, &set.counts, device, mode, &mut part);
        let sent = sent_rows(answer, &part);
        let union = union_of_parts(set, device, mode);
        let as_asked = if mode == 3 { union.iter().all(|row| sent.contains(row)) } else { sent == union };
        if sent.len() > union.len() {
            case.note(MORE_THAN_UNION);
        }
        case.compared(as_asked, answer, || {
            format!("{set:?} {device:?} {mode}: {answer:?} {sent:?}, union {union:?}")
        });
    }
}

/// A set sends what the conjunction of its rules does as one rule, which holds where each of them does.
#[test]
fn conjunctions() {
    let limit = Together { rows: 40, cost: 20_000 };
    let tally = run("conjunctions", 7_000, 15_000, |case| {
        let (set, devices) = set_and_devices_or_roots(&mut case.random, limit);
        if let Some(rule) = conjunction(&set) {
            holds_where_each_does(case, &set, &rule, &devices.concat());
            for device in devices {
                parts_are_the_conjunctions(case, &set, &rule, &device);
            }
        }
    });
    tally.saw_each([0], 15_000);
    tally.saw_each([17], 1_000);
    tally.saw_both_values(5_000);
    tally.saw_noted(SEVERAL, 4_000);
    tally.saw_noted(SPARE, 1_000);
}

fn holds_where_each_does(case: &mut Case, set: &Set, rule: &[u32], pool: &[u32]) {
    if set.counts.len() > 1 {
        case.note(SEVERAL);
    }
    let mut verdicts = vec![7; set.counts.len()];
    ffi::set_verdicts(&set.rules, &set.counts, pool, &mut verdicts);
    let each = Answer::Done(verdicts.iter().all(|&byte| byte == 1) as usize);
    let found = ffi::verdict(rule, pool);
    case.compared(found == each, each, || format!("{set:?} {pool:?}: {verdicts:?}, {rule:?}: {found:?}"));
}

fn parts_are_the_conjunctions(case: &mut Case, set: &Set, rule: &[u32], device: &[u32]) {
    let length = match case.random.chance(80) {
        true => device.len(),
        false => case.random.below(device.len() + 1),
    };
    let output = case.random.words(length);
    let [branch, full] = [2, 3].map(|mode| {
        let (mut part, mut expected) = (output.clone(), output.clone());
        let one = ffi::part(rule, device, mode, &mut expected);
        let found = ffi::set_part(&set.rules, &set.counts, device, mode, &mut part);
        case.compared(found == one && part == expected, one, || {
            format!("{set:?} {device:?} {mode}: {found:?} {part:?}, {rule:?}: {one:?} {expected:?}")
        });
        one
    });
    if branch != full {
        case.note(SPARE);
    }
}

/// The rows of a part that was not refused.
fn sent_rows(answer: Answer, part: &[u32]) -> Vec<[u32; ROW_WORDS]> {
    match answer {
        Answer::Done(rows) => rows_of(&part[..rows * ROW_WORDS]).iter().map(|row| row.words()).collect(),
        refused => panic!("{refused:?}"),
    }
}

/// The rows that are in the part of any rule, in order.
fn union_of_parts(set: &Set, device: &[u32], mode: u32) -> Vec<[u32; ROW_WORDS]> {
    let mut sent = vec![];
    for rule in set.each() {
        let mut part = vec![0; device.len()];
        let answer = ffi::part(rule, device, mode, &mut part);
        sent.extend(sent_rows(answer, &part));
    }
    let rows = rows_of(device).into_iter().map(|row| row.words());
    rows.filter(|row| sent.contains(row)).collect()
}

/// Rule 0 is false, and would be true on the union of the rules' full parts: that is the root of two rows, and
/// the set's full part has both.
#[test]
fn the_union_of_full_parts_would_lose_a_verdict() {
    let rules: [&[u32]; 2] = [
        &[6, 1, 0, 1, 5, 2, 1, 1, 8, 1, 0, 0],
        &[2, 1, 5, 0, 5, 2, 0, 1, 3, 4, 3, 0, 9, 0, 0, 0, 9, 0, 1, 0, 6, 6, 0, 1, 7, 0, 0, 0],
    ];
    let set = Set::of(&rules);
    assert_eq!(set.counts, [3, 7]);
    let table = [2, 1, 0, 0, 3, 1, 2, 2, 0, 0, 3, 3, 2, 3, 0, 0, 1, 0, 2, 4, 3, 1, 1, 3];
    let mut part = table;
    let answer = ffi::set_part(&set.rules, &set.counts, &table, 3, &mut part);
    assert_eq!(answer, Answer::Done(2));
    let (full, union) = (&part[..2 * ROW_WORDS], union_of_parts(&set, &table, 3).concat());
    assert_eq!(full, &table[2 * ROW_WORDS..]);
    assert_eq!(union, &table[2 * ROW_WORDS..3 * ROW_WORDS]);
    let verdicts = |pool: &[u32]| {
        let mut verdicts = [7; 3];
        assert_eq!(ffi::set_verdicts(&set.rules, &set.counts, pool, &mut verdicts), Answer::Done(2));
        verdicts
    };
    assert_eq!(verdicts(&table)[0], 0);
    assert_eq!(verdicts(full), verdicts(&table));
    assert_eq!(verdicts(&union)[0], 1);
}
