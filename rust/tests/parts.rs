//! The parts, and demand 3 on lists of devices.
#![cfg(feature = "parts")]

use gabzeril_tests::compare::{calls, run, Case, Tally};
use gabzeril_tests::generate::*;
use gabzeril_tests::random::Random;

#[test]
fn accepted_rules_and_tables() {
    let limit = Together { rows: 1_024, cost: 30_000 };
    let tally = run("accepted_rules_and_tables", 9_000, 100_000, |case| {
        let (rule, devices) = rule_and_devices(&mut case.random, limit);
        for device in devices.into_iter().take(4) {
            each_mode(case, &rule, &device);
        }
    });
    tally.saw_each([0, 17], 20_000);
    tally.saw_both_values(10_000);
}

fn each_mode(case: &mut Case, rule: &[u32], device: &[u32]) {
    for mode in 1..=3 {
        let words = words_sent(rule, device, mode);
        for length in some_lengths_around(&mut case.random, words) {
            let output = case.random.words(length);
            calls::part(case, rule, device, mode, &output);
        }
    }
}

/// The row that decides may be any of many.
#[test]
fn devices_of_many_siblings() {
    let limit = Together { rows: 30, cost: 60_000 };
    let tally = run("devices_of_many_siblings", 20_000, 20_000, |case| {
        let (rule, device) = rule_and_siblings(&mut case.random, limit);
        let output = case.random.words(device.len());
        calls::part(case, &rule, &device, 3, &output);
    });
    tally.saw_both_values(2_000);
}

/// Each is read within the others' bodies, inside every connective; one request in ten is damaged.
#[test]
fn quantifiers_over_roots() {
    let cost = 100_000;
    let tally = run("quantifiers_over_roots", 70_000, 100_000, |case| {
        let (rule, device) = rule_and_roots(&mut case.random, cost);
        for mode in [2, 3] {
            let mut request = (rule.clone(), device.clone(), mode);
            if case.random.chance(10) {
                request = damaged_request(&mut case.random, request);
            }
            let (rule, device, mode) = request;
            // A damage may leave all accepted, but far too long to read.
            if reading_cost(&rule, &device) > 10 * cost {
                continue;
            }
            let length = match case.random.chance(20) {
                true => one_length_around(&mut case.random, words_sent(&rule, &device, mode)),
                false => device.len(),
            };
            let output = case.random.words(length);
            calls::part(case, &rule, &device, mode, &output);
        }
    });
    saw_each_before_the_part(&tally, 100);
    tally.saw_each([0], 100_000);
    tally.saw_each([17], 5_000);
    tally.saw_both_values(1_000);
}

type Request = (Vec<u32>, Vec<u32>, u32);

/// A fault in the rule, the table or the mode, or a row of another device.
fn damaged_request(random: &mut Random, (rule, device, mode): Request) -> Request {
    match random.below(4) {
        0 => (damaged_rule(random, &rule), device, mode),
        1 => (rule, damaged_table(random, &device), mode),
        2 => (rule, device, unknown_mode(random)),
        _ => (rule, with_another_device(random, &device), mode),
    }
}

#[test]
fn refused_rules_and_tables() {
    let tally = run("refused_rules_and_tables", 25_000, 20_000, |case| {
        let random = &mut case.random;
        let limit = Together { rows: random.pick(&[20, 40, 40, 200]), cost: 20_000 };
        let (mut rule, mut table) = rule_and_pool(random, limit);
        // A table of several devices is refused with 14; other faults come before and beside it.
        if random.chance(30) {
            rule = damaged_rule(random, &rule);
        }
        if random.chance(30) {
            table = damaged_table(random, &table);
        }
        let mode = match random.chance(70) {
            true => random.between(1, 3) as u32,
            false => unknown_mode(random),
        };
        // A damage may leave both accepted, but far too long to read.
        if reading_cost(&rule, &table) > 10 * limit.cost {
            return;
        }
        let length = one_length_around(random, table.len());
        let output = case.random.words(length);
        calls::part(case, &rule, &table, mode, &output);
    });
    saw_each_before_the_part(&tally, 100);
}

/// The refusals of the rule, the table, the mode and the devices.
fn saw_each_before_the_part(tally: &Tally, least: u64) {
    tally.saw_each(RULE_FAULTS, least);
    tally.saw_each(TABLE_FAULTS, least);
    tally.saw_each([13, 14], least);
}

#[cfg(all(feature = "lower", feature = "engine"))]
#[test]
fn lists_of_devices() {
    use gabzeril_tests::answer::Answer;
    use gabzeril_tests::demand3::{check_list, LIBRARY_ON_ONE_RULE};

    let limit = Together { rows: 24, cost: 8_000 };
    run("lists_of_devices", 100_000, 100_000, |case| {
        let (rule, devices) = rule_and_devices(&mut case.random, limit);
        let result = check_list(&LIBRARY_ON_ONE_RULE, &mut case.random, &Set::of(&[&rule]), &devices);
        case.compared(result.is_ok(), Answer::Done(devices.len()), || {
            format!("{rule:?} {devices:?}: {result:?}")
        });
    });
}
