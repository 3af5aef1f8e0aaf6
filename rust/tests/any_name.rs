//! Quantifiers over any name, through every call that takes rules or their files.
#![cfg(all(
    feature = "lower",
    feature = "engine",
    feature = "parts",
    feature = "files_entry",
    feature = "sets",
    feature = "trial"
))]

use std::collections::BTreeSet;
use std::fmt::Debug;

use gabzeril_tests::answer::{Answer, Refusal};
use gabzeril_tests::checker::{
    check_rule, check_table, rows_of, verdict, words_of, ADD, ANY_NAME, ENTRY_WORDS, MOST_NAME, POOL,
    ROW_WORDS, RULE, SET,
};
use gabzeril_tests::compare::each_call::{each_file, each_on_words, each_part, mostly_one_device};
use gabzeril_tests::compare::{calls, run, Case, Tally};
use gabzeril_tests::demand3::{check_list, LIBRARY_ON_ONE_RULE, LIBRARY_ON_SETS};
use gabzeril_tests::ffi;
use gabzeril_tests::generate::*;
use gabzeril_tests::random::Random;

const LIMIT: Together = Together { rows: 40, cost: 10_000 };

const HAS_ANY_NAME: &str = "accepted with a quantifier over any name";
const NAME_REFUSED: &str = "3 at a quantifier";
const NO_NAME: &str = "9 at a row named 0";

const ONE_SIDED: [OneSided; 2] = [OneSided::ReadingAlone, OneSided::ReachingAlone];

/// What is noted where another reading of the name 0 gives another answer.
fn other(what: &str, reading: impl Debug) -> String {
    format!("another {what} by {reading:?}")
}

/// A fault of the checks behind 3.
fn at_any_name(number: u32) -> String {
    format!("{number} at a quantifier over any name")
}

/// One request in five is damaged; one rule in five is about as nested as may be.
#[test]
fn every_call() {
    let tally = run("every_call_on_any_names", 16_000, 200_000, |case| {
        let (mut rule, mut pool) = rule_and_table(&mut case.random);
        if case.random.chance(20) {
            (rule, pool) = damaged(&mut case.random, rule, pool);
        }
        note_refused(case, &rule, &pool);
        // A damage may leave both accepted, but far too long to evaluate.
        if verdict_cost(&rule, &pool) > 10 * LIMIT.cost {
            return;
        }
        note_other_answers(case, &rule, &pool);
        each_on_words(case, &rule, &pool);
        let device = mostly_one_device(case, &pool);
        if reading_cost(&rule, device) <= 10 * LIMIT.cost {
            note_other_parts(case, &rule, device);
            each_part(case, &rule, device);
        }
        each_file(case, &rule, &pool, 10 * LIMIT.cost);
    });
    tally.saw_each([0], 130_000);
    tally.saw_each(RULE_FAULTS, 350);
    tally.saw_each(TABLE_FAULTS, 150);
    tally.saw_each([14, 17, 18, 19], 1_000);
    tally.saw_both_values(12_000);
    tally.saw_noted(HAS_ANY_NAME, 9_000);
    for what in [NAME_REFUSED, NO_NAME, &at_any_name(6)] {
        tally.saw_noted(what, 500);
    }
    saw_others(&tally, "verdict", [5_000, 1_200, 5_000, 3_000, 3_000]);
    saw_others(&tally, "marking", [7_000, 1_800, 7_000, 4_000, 4_000]);
    saw_others(&tally, "branch part", [6_000, 1_800, 6_000, 2_500, 2_500]);
    saw_others(&tally, "full part", [5_000, 1_400, 5_000, 2_500, 2_500]);
    for part in ["branch part", "full part"] {
        tally.saw_noted(&other(part, OneSided::ReadingAlone), 5_000);
    }
    tally.saw_noted(&other("full part", OneSided::ReachingAlone), 800);
}

/// Fails unless each reading gave another such answer at least so often.
fn saw_others(tally: &Tally, what: &str, least: [u64; 5]) {
    for (narrow, least) in Narrow::OF_RULES.into_iter().zip(least) {
        tally.saw_noted(&other(what, narrow), least);
    }
}

fn rule_and_table(random: &mut Random) -> (Vec<u32>, Vec<u32>) {
    if random.chance(80) {
        return rule_and_any_names(random, LIMIT);
    }
    let (rule, table) = nested_rule_and_table(random, 4 * LIMIT.cost);
    (with_any_names(random, &rule.words), table)
}

fn with_any_names(random: &mut Random, rules: &[u32]) -> Vec<u32> {
    let percent = random.pick(&[20, 50, 100]);
    widened(random, rules, percent)
}

fn damaged(random: &mut Random, rule: Vec<u32>, pool: Vec<u32>) -> (Vec<u32>, Vec<u32>) {
    match random.below(4) {
        0 => (with_wrong_name(random, &rule), pool),
        1 => (rule, with_row_named_0(random, &pool)),
        _ => damaged_together(random, rule, pool),
    }
}

/// A name out of range in some quantifier.
fn with_wrong_name(random: &mut Random, rules: &[u32]) -> Vec<u32> {
    let mut rules = rules.to_vec();
    let entries = rules.chunks_exact_mut(ENTRY_WORDS);
    let mut quantifiers: Vec<&mut [u32]> = entries.filter(|words| matches!(words[0], 5 | 6)).collect();
    let place = random.below(quantifiers.len());
    quantifiers[place][3] = random.pick(&[MOST_NAME + 1, MOST_NAME + 2, 1 << 31, u32::MAX - 1, u32::MAX]);
    rules
}

/// What takes rows of any name is no name of a row.
fn with_row_named_0(random: &mut Random, table: &[u32]) -> Vec<u32> {
    let mut rows = rows_of(table);
    if !rows.is_empty() {
        let place = random.below(rows.len());
        rows[place].name = ANY_NAME;
    }
    words_of(&rows)
}

/// Notes what names have to do with a refusal.
fn note_refused(case: &mut Case, rule: &[u32], pool: &[u32]) {
    if let Answer::Refused(Refusal { number, place }) = check_rule(rule) {
        match rule.get(place * ENTRY_WORDS..) {
            Some([5 | 6, ..]) if number == 3 => case.note(NAME_REFUSED),
            Some([5 | 6, _, _, ANY_NAME, ..]) if number > 3 => case.note(at_any_name(number)),
            _ => {}
        }
    }
    if let Answer::Refused(Refusal { number: 9, place }) = check_table(pool) {
        let row = rows_of(pool)[place];
        let in_range = [row.device, row.at].iter().all(|word| (1..=MOST_NAME).contains(word));
        case.note_met([(row.name == ANY_NAME && in_range, NO_NAME)]);
    }
}

/// Notes by which other readings an accepted request would have another verdict, or other rows would be marked.
fn note_other_answers(case: &mut Case, rule: &[u32], pool: &[u32]) {
    if check_rule(rule).number() != 0 || check_table(pool).number() != 0 {
        return;
    }
    case.note_met([(has_any_name(rule), HAS_ANY_NAME)]);
    for narrow in Narrow::OF_RULES {
        case.note_met([
            (narrow.other_verdict(rule, pool), &other("verdict", narrow)),
            (narrow.other_marks(rule, pool), &other("marking", narrow)),
        ]);
    }
}

/// The same of parts.
fn note_other_parts(case: &mut Case, rule: &[u32], device: &[u32]) {
    // Where all rows are sent, nothing is refused.
    if words_sent(rule, device, 1) == 0 {
        return;
    }
    let set = Set::of(&[rule]);
    for (mode, part) in [(2, "branch part"), (3, "full part")] {
        for narrow in Narrow::OF_RULES {
            case.note_met([(narrow.other_part(&set, device, mode), &other(part, narrow))]);
        }
        for one_sided in ONE_SIDED {
            case.note_met([(one_sided.other_part(&set, device, mode), &other(part, one_sided))]);
        }
    }
}

/// Each fault of a rule with many quantifiers over any name, alone and beside others, also within a set.
#[test]
fn refused_rules() {
    let tally = run("refused_rules_of_any_names", 20_000, 120_000, |case| {
        let random = &mut case.random;
        let vocabulary = Vocabulary::new(random);
        let shape = RuleShape::of_any_names(random);
        let accepted = rule_of(random, &vocabulary, shape);
        let mut one_fault = accepted.clone();
        let number = random.pick(&RULE_FAULTS);
        damage_rule(random, &mut one_fault, number);
        let several = damaged_rule(random, &accepted);
        let wrong_name = with_wrong_name(random, &accepted);
        for rule in [one_fault, several, wrong_name] {
            note_refused(case, &rule, &[]);
            calls::check_rule(case, &rule);
            let whole = &rule[..rule.len() / ENTRY_WORDS * ENTRY_WORDS];
            calls::check_set(case, &Set::of(&[&accepted[..], whole]));
        }
    });
    tally.saw_each(RULE_FAULTS, 5_000);
    tally.saw_noted(NAME_REFUSED, 15_000);
    for number in 4..=7 {
        tally.saw_noted(&at_any_name(number), 300);
    }
}

/// Sets, their verdicts and parts, and plans. One in five has a fault: in the set, in the pool or in a step.
#[test]
fn sets_and_plans() {
    let limit = PlanLimit { rows: 24, steps: 8, cost: 4_000 };
    let tally = run("sets_and_plans_on_any_names", 12_000, 65_000, |case| {
        let mut plan = plan(&mut case.random, limit);
        plan.set.rules = with_any_names(&mut case.random, &plan.set.rules);
        let has_fault = case.random.chance(20);
        if has_fault {
            plan = plan_with_fault(&mut case.random, plan);
        }
        // So many rows of any name may take far too long.
        if set_cost(&plan.set, &plan.pool) > 20 * limit.cost {
            return;
        }
        if !has_fault {
            note_other_plan(case, &plan);
        }
        each_of_plan(case, &plan);
    });
    tally.saw_each([0], 45_000);
    tally.saw_each([3, 9, 14, 17], 1_000);
    tally.saw_each([20], 600);
    tally.saw_noted(HAS_ANY_NAME, 7_000);
    for what in ["set of verdicts", "trial"] {
        saw_others(&tally, what, [4_000, 1_200, 4_000, 3_000, 3_000]);
        tally.saw_noted(&other(what, Narrow::FirstRule), 3_500);
    }
    tally.saw_noted(&other("part for a set", Narrow::NoQuantifier), 3_500);
    tally.saw_noted(&other("part for a set", Narrow::FirstRule), 2_000);
}

fn plan_with_fault(random: &mut Random, mut plan: Plan) -> Plan {
    match random.below(5) {
        0 => plan.set = damaged_set(random, &plan.set),
        1 => plan.set.rules = with_wrong_name(random, &plan.set.rules),
        2 => plan.pool = with_row_named_0(random, &plan.pool),
        3 => plan.steps.extend([ADD, MOST_NAME, MOST_NAME, 0, 0, ANY_NAME, 0]),
        _ => plan = damaged_plan(random, &plan),
    }
    plan
}

fn note_other_plan(case: &mut Case, plan: &Plan) {
    case.note_met([(has_any_name(&plan.set.rules), HAS_ANY_NAME)]);
    for narrow in Narrow::OF_RULES.into_iter().chain([Narrow::FirstRule]) {
        case.note_met([
            (narrow.other_verdicts(&plan.set, &plan.pool), &other("set of verdicts", narrow)),
            (narrow.other_trial(plan), &other("trial", narrow)),
        ]);
    }
}

fn each_of_plan(case: &mut Case, plan: &Plan) {
    let set = &plan.set;
    calls::check_set(case, set);
    let length = mostly_enough(&mut case.random, set.counts.len() + 1, set.counts.len());
    let output = case.random.bytes(length);
    calls::set_verdicts(case, set, &plan.pool, &output);
    let device = mostly_one_device(case, &plan.pool);
    if words_sent_for(set, device, 1) > 0 {
        for narrow in [Narrow::NoQuantifier, Narrow::FirstRule] {
            case.note_met([(narrow.other_part(set, device, 3), &other("part for a set", narrow))]);
        }
    }
    for mode in 1..=3 {
        let length = mostly_enough(&mut case.random, device.len(), words_sent_for(set, device, mode));
        let output = case.random.words(length);
        calls::set_part(case, set, device, mode, &output);
    }
    let room = any_room(&mut case.random, plan);
    let _ = calls::try_plan(case, plan, room);
}

/// Demand 3: each device sends any cut, and the joined cuts have the verdict of the dump. If the name 0 took no
/// rows in reaching, or none in reading, verdicts would be lost.
#[test]
fn lists_of_devices() {
    let limit = Together { rows: 24, cost: 8_000 };
    let tally = run("lists_of_any_names", 30_000, 30_000, |case| {
        let (rule, devices) = any_names_and_devices(&mut case.random, limit);
        let set = Set::of(&[&rule]);
        note_lost_verdicts(case, &set, &devices);
        let result = check_list(&LIBRARY_ON_ONE_RULE, &mut case.random, &set, &devices);
        case.compared(result.is_ok(), Answer::Done(devices.len()), || {
            format!("{rule:?} {devices:?}: {result:?}")
        });
    });
    tally.saw_noted(HAS_ANY_NAME, 25_000);
    saw_lost_verdicts(&tally, 12_000, 1_500);
}

#[test]
fn lists_of_devices_for_sets() {
    let limit = Together { rows: 24, cost: 8_000 };
    let tally = run("lists_of_any_names_for_sets", 12_000, 11_500, |case| {
        let (mut set, devices) = set_and_devices(&mut case.random, limit);
        set.rules = with_any_names(&mut case.random, &set.rules);
        // So many rows of any name may take far too long.
        if set_cost(&set, &devices.concat()) > 20 * limit.cost {
            return;
        }
        note_lost_verdicts(case, &set, &devices);
        let result = check_list(&LIBRARY_ON_SETS, &mut case.random, &set, &devices);
        case.compared(result.is_ok(), Answer::Done(devices.len()), || {
            format!("{set:?} {devices:?}: {result:?}")
        });
    });
    tally.saw_noted(HAS_ANY_NAME, 9_000);
    saw_lost_verdicts(&tally, 3_000, 30);
}

const ON_BRANCH_PARTS: &str = "verdict on branch parts";
const ON_FULL_PARTS: &str = "verdict on full parts";

fn note_lost_verdicts(case: &mut Case, set: &Set, devices: &[Vec<u32>]) {
    case.note_met([(has_any_name(&set.rules), HAS_ANY_NAME)]);
    for (mode, what) in [(2, ON_BRANCH_PARTS), (3, ON_FULL_PARTS)] {
        for one_sided in ONE_SIDED {
            case.note_met([(one_sided.loses_a_verdict(set, devices, mode), &other(what, one_sided))]);
        }
    }
}

/// What is reached alone makes the branch part, so that reading loses none there.
fn saw_lost_verdicts(tally: &Tally, by_reading_alone: u64, by_reaching_alone: u64) {
    for what in [ON_BRANCH_PARTS, ON_FULL_PARTS] {
        tally.saw_noted(&other(what, OneSided::ReadingAlone), by_reading_alone);
    }
    tally.saw_noted(&other(ON_FULL_PARTS, OneSided::ReachingAlone), by_reaching_alone);
}

const SEVERAL_NAMES: &str = "spelled out with several names";
const ONE_NAME_LESS: &str = "another verdict with one name less";

/// Every row of any name is every row of each name that the table has, and some row is some row of one of them.
/// The library's verdict, branch part and full part are those of the rule that lists the names.
#[test]
fn names_are_spelled_out() {
    let tally = run("names_are_spelled_out", 12_000, 60_000, |case| {
        let (rule, devices) = any_names_and_devices(&mut case.random, Together { rows: 30, cost: 8_000 });
        let pool = devices.concat();
        let names = names_of(&mut case.random, &pool);
        let Some(long) = spelled_out(&rule, &names).filter(|_| has_any_name(&rule)) else {
            return;
        };
        let less = if names.len() > 1 { spelled_out(&rule, &names[1..]) } else { None };
        let turned = less.is_some_and(|less| verdict(&less, &pool) != verdict(&rule, &pool));
        case.note_met([(names.len() > 1, SEVERAL_NAMES), (turned, ONE_NAME_LESS)]);
        let [found, expected] = [&rule, &long].map(|rule| ffi::verdict(rule, &pool));
        case.compared(found == expected, expected, || {
            format!("{rule:?} {pool:?}: {found:?}, {long:?}: {expected:?}")
        });
        for device in devices {
            parts_are_spelled_out(case, [&rule, &long], &device);
        }
    });
    tally.saw_each([0], 60_000);
    tally.saw_both_values(10_000);
    tally.saw_noted(SEVERAL_NAMES, 6_000);
    tally.saw_noted(ONE_NAME_LESS, 700);
}

/// Each name of the table once, in any order; there is one even if there are no rows.
fn names_of(random: &mut Random, table: &[u32]) -> Vec<u32> {
    let names: BTreeSet<u32> = rows_of(table).iter().map(|row| row.name).collect();
    let mut names = if names.is_empty() { vec![1] } else { names.into_iter().collect::<Vec<_>>() };
    for place in 1..names.len() {
        names.swap(place, random.below(place + 1));
    }
    names
}

fn parts_are_spelled_out(case: &mut Case, rules: [&Vec<u32>; 2], device: &[u32]) {
    for mode in [2, 3] {
        let [(found, part), (expected, long_part)] = rules.map(|rule| {
            let mut part = vec![7; device.len()];
            (ffi::part(rule, device, mode, &mut part), part)
        });
        case.compared(found == expected && part == long_part, expected, || {
            format!("{rules:?} {device:?} {mode}: {found:?} {part:?}, {expected:?} {long_part:?}")
        });
    }
}

/// Nothing under this interface equals 0: every root named 1, every row named 3 under it, every row under that.
const NOTHING_IS_0: [u32; 20] = [5, 1, 0, 1, 5, 2, 1, 3, 5, 3, 2, ANY_NAME, 1, 4, 0, 0, 7, 2, 1, 0];

/// The interface has rows of three names, and each of them decides.
#[test]
fn nothing_under_this_interface_equals_0() {
    let pool = |values: [u32; 3]| {
        let rows = [4, 1, MOST_NAME].into_iter().zip(values).zip(3..);
        let under = rows.flat_map(|((name, value), at)| [1, at, 2, 2, name, value]);
        [1, 1, 0, 0, 1, 0, 1, 2, 1, 1, 3, 0].into_iter().chain(under).collect::<Vec<u32>>()
    };
    for (values, found, marked, branch_and_full) in [
        ([1, 1, 1], 1, [1, 1, 1, 1, 1], [5, 0]),
        ([0, 1, 1], 0, [1, 1, 1, 0, 0], [5, 3]),
        ([1, 0, 1], 0, [1, 1, 0, 1, 0], [5, 3]),
        ([1, 1, 0], 0, [1, 1, 0, 0, 1], [5, 3]),
        ([0, 0, 0], 0, [1, 1, 1, 0, 0], [5, 5]),
    ] {
        let (pool, mut marks) = (pool(values), [7; 5]);
        assert_eq!(ffi::verdict(&NOTHING_IS_0, &pool), Answer::Done(found), "{values:?}");
        assert_eq!(ffi::marks(&NOTHING_IS_0, &pool, &mut marks), Answer::Done(found), "{values:?}");
        assert_eq!(marks, marked, "{values:?}");
        let sent = [2, 3].map(|mode| ffi::part(&NOTHING_IS_0, &pool, mode, &mut pool.clone()));
        assert_eq!(sent, branch_and_full.map(Answer::Done), "{values:?}");
        let files = (RULE.text_of(&NOTHING_IS_0), POOL.text_of(&pool));
        assert_eq!(ffi::check_files(&files.0, &files.1), found as u32, "{values:?}");
    }
    // A step changes a row under it, another adds one.
    let (steps, mut verdicts) = ([SET, 1, 4, 0, 0, 0, 0, ADD, 1, 9, 2, 2, 60_000, 0], [7; 2]);
    let trial =
        ffi::try_plan(&NOTHING_IS_0, &[5], &pool([1; 3]), &steps, &mut [0; 6 * ROW_WORDS], &mut verdicts);
    assert_eq!((trial.number, trial.steps, verdicts), (0, 2, [0, 0]));
}

/// The second root has no row named 2 under it, but the value of the first; only its name is another.
#[test]
fn equal_values_under_two_names() {
    let rows = [[2, 2, 0, 0, 2, 2], [2, 5, 0, 0, 1, 2], [2, 8, 2, 1, 2, 1], [2, 9, 8, 2, 3, 2]].concat();
    let rule = [[6, 1, 0, 0], [5, 2, 1, 2], [5, 3, 0, 0], [6, 4, 0, 1], [7, 0, 0, 1]].concat();
    assert_eq!(ffi::verdict(&rule, &rows), Answer::Done(1));
    let mut marks = [7; 4];
    assert_eq!(ffi::marks(&rule, &rows, &mut marks), Answer::Done(1));
    assert_eq!(marks, [0, 1, 0, 0]);
}

/// Every name around both ends of the range, in each kind of quantifier and in rows.
#[test]
fn names_of_quantifiers_and_rows() {
    for name in (0..3).chain(MOST_NAME - 1..MOST_NAME + 3).chain([1 << 31, u32::MAX]) {
        let of_row = (1..=MOST_NAME).contains(&name);
        for (kind, b) in [(5, 0), (6, 0), (5, 1), (6, 1)] {
            let rule = [6, 1, 0, 1, kind, 2, b, name, 7, 1, 1, 0];
            let answer = if of_row || name == ANY_NAME { Answer::Done(3) } else { Answer::refused(3, 1) };
            assert_eq!(ffi::check_rule(&rule), answer, "{rule:?}");
        }
        let answer = if of_row { Answer::Done(2) } else { Answer::refused(9, 1) };
        assert_eq!(ffi::check_table(&[1, 1, 0, 0, 1, 1, 1, 2, 1, 1, name, 1]), answer, "{name}");
    }
}

/// The file of a rule has 0 for any name, and no other spelling of it.
#[test]
fn any_name_in_files() {
    let file = b"kind a b c\n5 1 0 1\n5 2 1 3\n5 3 2 0\n1 4 0 0\n7 2 1 0\n";
    let (mut rule, mut written) = ([7; 20], vec![7; file.len()]);
    assert_eq!(ffi::read_rule(file, &mut rule), Answer::Done(20));
    assert_eq!(rule, NOTHING_IS_0);
    assert_eq!(ffi::write_rule(&rule, &mut written), Answer::Done(file.len()));
    assert_eq!(written, file);
    for line in ["5 1 0 00", "5 1 0 -0", "5 1 0 ", "5 1 0 *"] {
        let file = format!("kind a b c\n{line}\n7 0 1 0\n");
        assert_eq!(ffi::read_rule(file.as_bytes(), &mut rule), Answer::refused(19, 2), "{line}");
    }
}
