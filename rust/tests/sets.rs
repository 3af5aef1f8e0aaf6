//! Sets of rules: their checks, verdicts and parts, and demand 3.
#![cfg(all(feature = "lower", feature = "engine", feature = "parts", feature = "sets"))]

use gabzeril_tests::answer::Answer;
use gabzeril_tests::checker::{self, check_rule, ENTRY_WORDS, MOST_ENTRIES, MOST_RULES, ROW_WORDS};
use gabzeril_tests::compare::{calls, run, Case, Tally};
use gabzeril_tests::demand3::{check_list, LIBRARY_ON_SETS};
use gabzeril_tests::ffi;
use gabzeril_tests::generate::*;
use gabzeril_tests::largest;
use gabzeril_tests::random::Random;

const ONE_RULE: &str = "an accepted set of one rule";
const MOST: &str = "an accepted set of as many rules as may be";
const SPARE: &str = "a full part without some rows of the branch part";
const HIGHER_FIRST: &str = "an earlier rule with a higher number than a later one";
const LATER_RULE: &str = "a place behind the first rule";
const LAST_OF_MOST: &str = "only the last of as many rules as may be is refused";
const SUM_MODULO_32_BITS: &str = "counts that add up modulo 2^32 alone";
const SUM_MODULO_30_BITS: &str = "counts that add up modulo 2^30 alone, so that their words do modulo 2^32";
const LONGEST: &str = "an accepted set of as many entries as may be";

/// What is noted of rules that start past certain entries.
type Far = [(u32, &'static str); 3];

const FAR_REFUSED: Far = [
    (1_024, "a refused rule past entry 1,024"),
    (2_048, "a refused rule past entry 2,048"),
    (3_500, "a refused rule past entry 3,500"),
];
const FAR_SETS: Far = [
    (1_024, "the last rule starts past entry 1,024"),
    (2_048, "the last rule starts past entry 2,048"),
    (3_500, "the last rule starts past entry 3,500"),
];
const FAR_VERDICTS: Far = [
    (1_024, "a rule past entry 1,024 has another verdict than the one before it"),
    (2_048, "a rule past entry 2,048 has another verdict than the one before it"),
    (3_500, "a rule past entry 3,500 has another verdict than the one before it"),
];
const FAR_PARTS: Far = [
    (1_024, "rows sent for rules past entry 1,024 alone"),
    (2_048, "rows sent for rules past entry 2,048 alone"),
    (3_500, "rows sent for rules past entry 3,500 alone"),
];

/// Also of sets as long as may be.
#[test]
fn checks() {
    let tally = run("checks_of_sets", 15_000, 30_000, |case| {
        let vocabulary = Vocabulary::new(&mut case.random);
        let accepted = set(&mut case.random, &vocabulary);
        let damaged = damaged_set(&mut case.random, &accepted);
        for set in [accepted, damaged] {
            note_refused(case, &set);
            calls::check_set(case, &set);
        }
    });
    tally.saw_each([0, 20], 4_000);
    tally.saw_each(RULE_FAULTS, 300);
    tally.saw_noted(LATER_RULE, 2_000);
    tally.saw_noted(HIGHER_FIRST, 700);
    saw_far(&tally, FAR_REFUSED, [150, 80, 25]);
    tally.saw_noted(LAST_OF_MOST, 40);
}

fn saw_far(tally: &Tally, far: Far, least: [u64; 3]) {
    for ((_, what), least) in far.into_iter().zip(least) {
        tally.saw_noted(what, least);
    }
}

/// The last entry that a set can have.
#[test]
fn the_last_place() {
    let last = MOST_RULES * MOST_ENTRIES - 1;
    for mut set in largest::sets().into_iter().filter(|set| set.rules.len() / ENTRY_WORDS == last + 1) {
        let words = set.rules.len() - ENTRY_WORDS;
        // A comparison: of an unknown kind, with a word that must be 0 or 1, of a variable that is not bound.
        for (word, number) in [(1, 7), (2, 3), (0, 2)] {
            set.rules[words + word] = u32::MAX;
            assert_eq!(ffi::check_set(&set.rules, &set.counts), Answer::refused(number, last));
        }
    }
}

/// No length is taken modulo 2^16 or another power of two: the entries are two modulo it, or the counts are one.
#[test]
fn lengths_agree_modulo_nothing() {
    let rule = [5, 1, 0, 1, 7, 0, 1, 0];
    for more in (1..=20).map(|bits| 1 << bits) {
        let rules = [&rule[..], &[7, 0, 1, 0].repeat(more)].concat();
        is_20(&Set { rules, counts: vec![2] });
    }
    for more in (5..=20).map(|bits| 1 << bits) {
        let (twos, zeros) = (vec![2; more + 1], vec![0; more + 1]);
        let first = [&[2][..], &zeros[1..]].concat();
        is_20(&Set { rules: rule.repeat(more + 1), counts: twos.clone() });
        for counts in [twos, zeros.clone(), first] {
            is_20(&Set { rules: rule.to_vec(), counts });
        }
        is_20(&Set { rules: vec![], counts: zeros });
    }
}

/// Every call refuses the set with 20 and leaves its output.
fn is_20(set: &Set) {
    let (rules, counts, row) = (&set.rules, &set.counts, [1, 1, 0, 0, 1, 1]);
    let about = || format!("{} words, {} counts", rules.len(), counts.len());
    let refused = Answer::refused(20, 0);
    assert_eq!(ffi::check_set(rules, counts), refused, "{}", about());
    let mut verdicts = vec![7; counts.len()];
    assert_eq!(ffi::set_verdicts(rules, counts, &row, &mut verdicts), refused, "{}", about());
    assert!(verdicts.iter().all(|&byte| byte == 7), "{}", about());
    for mode in 1..=3 {
        let mut part = [7; ROW_WORDS];
        assert_eq!(ffi::set_part(rules, counts, &row, mode, &mut part), refused, "{}", about());
        assert_eq!(part, [7; ROW_WORDS], "{}", about());
    }
}

#[test]
fn accepted_sets() {
    let limit = Together { rows: 1_024, cost: 30_000 };
    let tally = run("accepted_sets", 4_000, 60_000, |case| {
        let (set, devices) = set_and_devices(&mut case.random, limit);
        note_accepted(case, &set);
        calls::check_set(case, &set);
        each_verdict(case, &set, &devices.concat());
        for device in devices.into_iter().take(3) {
            each_mode(case, &set, &device);
        }
    });
    tally.saw_each([0], 30_000);
    tally.saw_each([17], 10_000);
    tally.saw_both_values(5_000);
    for what in [ONE_RULE, MOST] {
        tally.saw_noted(what, 150);
    }
}

fn note_accepted(case: &mut Case, set: &Set) {
    match set.counts.len() {
        1 => case.note(ONE_RULE),
        MOST_RULES => case.note(MOST),
        _ => {}
    }
    if set.rules.len() == MOST_RULES * MOST_ENTRIES * ENTRY_WORDS {
        case.note(LONGEST);
    }
    note_far(case, FAR_SETS, starts(set).last().copied());
}

/// The entry at which each rule starts.
fn starts(set: &Set) -> Vec<u32> {
    let next = |sum: &mut u32, &count: &u32| {
        *sum += count;
        Some(*sum - count)
    };
    set.counts.iter().scan(0, next).collect()
}

/// Notes past which entries there is such a rule, given where the last one starts.
fn note_far(case: &mut Case, far: Far, last: Option<u32>) {
    for (entry, what) in far {
        if last.is_some_and(|start| start > entry) {
            case.note(what);
        }
    }
}

fn each_verdict(case: &mut Case, set: &Set, pool: &[u32]) {
    for length in some_lengths_around(&mut case.random, set.counts.len()) {
        let output = case.random.bytes(length);
        calls::set_verdicts(case, set, pool, &output);
    }
}

fn each_mode(case: &mut Case, set: &Set, device: &[u32]) {
    for mode in 1..=3 {
        let words = words_sent_for(set, device, mode);
        for _ in 0..2 {
            let length = one_length_around(&mut case.random, words);
            let output = case.random.words(length);
            calls::set_part(case, set, device, mode, &output);
        }
    }
}

/// Quantifiers are read within others' bodies.
#[test]
fn quantifiers_over_roots() {
    let tally = run("sets_over_roots", 12_000, 24_000, |case| {
        let (set, device) = set_and_roots(&mut case.random, 60_000);
        if words_sent_for(&set, &device, 3) < words_sent_for(&set, &device, 2) {
            case.note(SPARE);
        }
        for mode in [2, 3] {
            let words = words_sent_for(&set, &device, mode);
            let length = mostly_enough(&mut case.random, device.len(), words);
            let output = case.random.words(length);
            calls::set_part(case, &set, &device, mode, &output);
        }
    });
    tally.saw_each([17], 500);
    tally.saw_noted(SPARE, 1_000);
}

/// Rules start anywhere. A check of so many entries takes long, so there are few calls in a case.
#[test]
fn far_sets() {
    let limit = Together { rows: 40, cost: 8_000 };
    let tally = run("far_sets", 700, 3_300, |case| {
        let (set, devices) = set_and_devices_or_roots(&mut case.random, limit);
        let set = far_apart(&mut case.random, &set);
        note_accepted(case, &set);
        calls::check_set(case, &set);
        far_verdicts(case, &set, &devices.concat());
        let device = &devices[case.random.below(devices.len())];
        for mode in [2, 3] {
            far_part(case, &set, device, mode);
        }
        far_refused(case, set, device);
    });
    tally.saw_noted(LONGEST, 100);
    for far in [FAR_SETS, FAR_VERDICTS, FAR_PARTS] {
        saw_far(&tally, far, [300, 200, 100]);
    }
    saw_far(&tally, FAR_REFUSED, [100, 60, 30]);
}

/// Notes where the last rule starts that has another verdict than the one before it.
fn far_verdicts(case: &mut Case, set: &Set, pool: &[u32]) {
    let mut verdicts = vec![0; set.counts.len()];
    checker::set_verdicts(&set.rules, &set.counts, pool, &mut verdicts);
    let last = (1..verdicts.len()).rev().find(|&rule| verdicts[rule] != verdicts[rule - 1]);
    note_far(case, FAR_VERDICTS, last.map(|rule| starts(set)[rule]));
    let length = mostly_enough(&mut case.random, MOST_RULES, set.counts.len());
    let output = case.random.bytes(length);
    calls::set_verdicts(case, set, pool, &output);
}

/// Notes whether the set sends more words than the rules that start early.
fn far_part(case: &mut Case, set: &Set, device: &[u32], mode: u32) {
    let (starts, rules, words) = (starts(set), set.each(), words_sent_for(set, device, mode));
    for (entry, what) in FAR_PARTS {
        let early = starts.iter().filter(|&&start| start <= entry).count();
        if early < rules.len() && words_sent_for(&Set::of(&rules[..early]), device, mode) < words {
            case.note(what);
        }
    }
    let length = mostly_enough(&mut case.random, device.len(), words);
    let output = case.random.words(length);
    calls::set_part(case, set, device, mode, &output);
}

/// A fault in a rule, and one of the calls.
fn far_refused(case: &mut Case, mut set: Set, device: &[u32]) {
    let random = &mut case.random;
    damage_set(random, &mut set, SetFault::Rule);
    // A damage may leave the set accepted, but far too long to evaluate.
    if set_cost(&set, device) > 100_000 {
        return;
    }
    note_refused(case, &set);
    match case.random.below(3) {
        0 => calls::check_set(case, &set),
        1 => calls::set_verdicts(case, &set, device, &[7; MOST_RULES]),
        _ => calls::set_part(case, &set, device, 3, &vec![7; device.len()]),
    }
}

/// Each refusal, alone and beside others, with damaged tables, modes and other devices.
#[test]
fn refused_sets() {
    let limit = Together { rows: 24, cost: 10_000 };
    let tally = run("refused_sets", 50_000, 125_000, |case| {
        let random = &mut case.random;
        let (mut set, mut table) = set_and_table(random, limit);
        if random.chance(60) {
            set = damaged_set(random, &set);
        }
        if random.chance(30) {
            table = damaged_table(random, &table);
        }
        // A damage may leave all accepted, but far too long to evaluate.
        if set_cost(&set, &table) > 10 * limit.cost {
            return;
        }
        note_refused(case, &set);
        calls::check_set(case, &set);
        let length = one_length_around(&mut case.random, set.counts.len());
        let output = case.random.bytes(length);
        calls::set_verdicts(case, &set, &table, &output);
        let mode = match case.random.chance(80) {
            true => case.random.between(1, 3) as u32,
            false => unknown_mode(&mut case.random),
        };
        let words = words_sent_for(&set, &table, mode);
        let length = mostly_enough(&mut case.random, table.len(), words);
        let output = case.random.words(length);
        calls::set_part(case, &set, &table, mode, &output);
    });
    tally.saw_each([0, 20], 10_000);
    tally.saw_each(RULE_FAULTS, 1_500);
    tally.saw_each(TABLE_FAULTS, 400);
    tally.saw_each([13, 14, 17], 1_500);
    tally.saw_noted(LATER_RULE, 5_000);
    tally.saw_noted(HIGHER_FIRST, 1_500);
    for what in [SUM_MODULO_32_BITS, SUM_MODULO_30_BITS] {
        tally.saw_noted(what, 400);
    }
}

/// Mostly the table of one device, at times of several.
fn set_and_table(random: &mut Random, limit: Together) -> (Set, Vec<u32>) {
    let (set, devices) = set_and_devices(random, limit);
    (set, one_or_several(random, &devices))
}

fn note_refused(case: &mut Case, set: &Set) {
    let entries = (set.rules.len() / ENTRY_WORDS) as u64;
    let (sum, whole) =
        (set.counts.iter().copied().map(u64::from).sum::<u64>(), set.rules.len().is_multiple_of(ENTRY_WORDS));
    let few = (1..=MOST_RULES).contains(&set.counts.len());
    if few && whole && sum != entries {
        let agree = |bits: u32| sum % (1 << bits) == entries % (1 << bits);
        if agree(32) {
            case.note(SUM_MODULO_32_BITS);
        } else if agree(30) {
            case.note(SUM_MODULO_30_BITS);
        }
    }
    if few && whole && sum == entries {
        let numbers: Vec<u32> = set.each().into_iter().map(|rule| check_rule(rule).number()).collect();
        if let Some(first) = numbers.iter().position(|&number| number > 0) {
            if first > 0 {
                case.note(LATER_RULE);
            }
            if first + 1 == MOST_RULES {
                case.note(LAST_OF_MOST);
            }
            note_far(case, FAR_REFUSED, Some(starts(set)[first]));
            if numbers[first..].iter().any(|&number| (1..numbers[first]).contains(&number)) {
                case.note(HIGHER_FIRST);
            }
        }
    }
}

/// A set of one rule answers what the calls on that rule do, refused or not.
#[test]
fn lists_of_devices() {
    let limit = Together { rows: 24, cost: 8_000 };
    let tally = run("lists_of_devices_for_sets", 30_000, 30_000, |case| {
        let (set, devices) = set_and_devices(&mut case.random, limit);
        let set = if case.random.chance(1) { far_apart(&mut case.random, &set) } else { set };
        note_accepted(case, &set);
        let result = check_list(&LIBRARY_ON_SETS, &mut case.random, &set, &devices);
        case.compared(result.is_ok(), Answer::Done(devices.len()), || {
            format!("{set:?} {devices:?}: {result:?}")
        });
    });
    for what in [ONE_RULE, MOST] {
        tally.saw_noted(what, 1_000);
    }
    tally.saw_noted(LONGEST, 35);
    saw_far(&tally, FAR_SETS, [120, 80, 50]);
}
