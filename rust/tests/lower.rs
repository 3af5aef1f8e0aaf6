//! The checks of rules and tables, joining, and the rows of one device.
#![cfg(feature = "lower")]

use gabzeril_tests::checker::{rows_of, words_of, ENTRY_WORDS, LEAST_VALUE, MOST_NAME, MOST_ROWS, ROW_WORDS};
use gabzeril_tests::compare::{calls, run, Case};
use gabzeril_tests::generate::*;
use gabzeril_tests::random::Random;

const BELOW_ZERO: &str = "accepted with a value or constant below zero";

#[test]
fn rules() {
    let tally = run("rules", 16_000, 60_000, |case| {
        let random = &mut case.random;
        let vocabulary = Vocabulary::new(random);
        let accepted = rule(random, &vocabulary);
        let is_below_zero = |words: &[u32]| matches!(words, [7..=9, _, 1, LEAST_VALUE..=u32::MAX]);
        let below_zero = accepted.chunks(ENTRY_WORDS).any(is_below_zero);
        let mut one_fault = accepted.clone();
        let number = random.pick(&RULE_FAULTS);
        damage_rule(random, &mut one_fault, number);
        let several = damaged_rule(random, &accepted);
        let any = any_rule(random);
        for rule in [accepted, one_fault, several, any] {
            calls::check_rule(case, &rule);
        }
        case.note_met([(below_zero, BELOW_ZERO)]);
    });
    tally.saw_each(0..=7, 2_000);
    tally.saw_noted(BELOW_ZERO, 2_000);
}

#[test]
fn tables() {
    let tally = run("tables", 14_000, 60_000, |case| {
        let random = &mut case.random;
        let vocabulary = Vocabulary::new(random);
        let accepted = pool(random, &vocabulary);
        let below_zero = rows_of(&accepted).iter().any(|row| row.value >= LEAST_VALUE);
        let mut one_fault = accepted.clone();
        let number = random.pick(&TABLE_FAULTS);
        damage_table(random, &mut one_fault, number);
        let several = damaged_table(random, &accepted);
        let any = any_table(random);
        for table in [accepted, one_fault, several, any] {
            calls::check_table(case, &table);
            if case.random.chance(20) {
                let device = device_number(&mut case.random, &table);
                calls::device_rows(case, &table, device);
            }
        }
        case.note_met([(below_zero, BELOW_ZERO)]);
    });
    tally.saw_each([0], 2_000);
    tally.saw_each(TABLE_FAULTS, 2_000);
    tally.saw_noted(BELOW_ZERO, 2_000);
}

#[test]
fn device_rows() {
    let tally = run("device_rows", 5_000, 20_000, |case| {
        let vocabulary = Vocabulary::new(&mut case.random);
        let table = pool(&mut case.random, &vocabulary);
        for _ in 0..4 {
            let device = device_number(&mut case.random, &table);
            calls::device_rows(case, &table, device);
        }
    });
    tally.saw_both_values(2_000);
}

/// Mostly a device of the table.
fn device_number(random: &mut Random, table: &[u32]) -> u32 {
    let rows = rows_of(table);
    if rows.is_empty() || random.chance(30) {
        return word_of_any_class(random);
    }
    let device = random.pick(&rows).device;
    if random.chance(20) {
        device.wrapping_add(1)
    } else {
        device
    }
}

#[test]
fn joining() {
    let tally = run("joining", 14_000, 40_000, |case| {
        let (first, second) = two_tables(case);
        let joined = first.len() + second.len();
        for length in some_lengths_around(&mut case.random, joined) {
            // The first table stands at the start, cut off if the buffer is short.
            let mut pool = case.random.words(length);
            let used = first.len().min(length);
            pool[..used].copy_from_slice(&first[..used]);
            let used = match case.random.below(25) {
                0 => length + case.random.below(3),
                // The last two: a row more would wrap, and as many whole rows as can be counted.
                1 => case.random.pick(&[
                    0,
                    1 << 31,
                    1 << 32,
                    usize::MAX,
                    usize::MAX - ROW_WORDS + 1,
                    usize::MAX / ROW_WORDS * ROW_WORDS,
                ]),
                2 => first.len(),
                _ => used,
            };
            calls::join(case, &pool, used, &second);
        }
    });
    tally.saw_each([0, 16, 17], 300);
    tally.saw_each(TABLE_FAULTS, 300);
}

/// Two tables that fit mostly, and otherwise fail each check of joining.
fn two_tables(case: &mut Case) -> (Vec<u32>, Vec<u32>) {
    let random = &mut case.random;
    let vocabulary = Vocabulary::new(random);
    let whole = pool(random, &vocabulary);
    let (mut first, mut second) = split(random, &whole);
    match random.below(12) {
        0 => std::mem::swap(&mut first, &mut second),
        1 => second = first.clone(),
        2 | 3 => second = pool(random, &vocabulary),
        4 => second = moved_behind(&first, pool(random, &vocabulary)),
        5 => (first, second) = many_rows(random, &vocabulary),
        6 => first = damaged_table(random, &first),
        7 => second = damaged_table(random, &second),
        8 => {
            first = damaged_table(random, &first);
            second = damaged_table(random, &second);
        }
        _ => {}
    }
    (first, second)
}

/// Cuts a pool before a row, mostly one that begins a device.
fn split(random: &mut Random, pool: &[u32]) -> (Vec<u32>, Vec<u32>) {
    let rows = rows_of(pool);
    let mut cut = random.below(rows.len() + 1);
    if random.chance(90) {
        while cut > 0 && cut < rows.len() && rows[cut].device == rows[cut - 1].device {
            cut += 1;
        }
    }
    (words_of(&rows[..cut]), words_of(&rows[cut..]))
}

/// The second table with its devices moved above those of the first; roots may then be equal.
fn moved_behind(first: &[u32], second: Vec<u32>) -> Vec<u32> {
    let last = rows_of(first).last().map_or(0, |row| row.device);
    let mut rows = rows_of(&second);
    rows.iter_mut().for_each(|row| row.device = (row.device + last).min(MOST_NAME));
    words_of(&rows)
}

/// Two tables with about 1,024 rows together.
fn many_rows(random: &mut Random, vocabulary: &Vocabulary) -> (Vec<u32>, Vec<u32>) {
    let rows = random.between(1, MOST_ROWS);
    let shape = PoolShape { rows, devices: 2, roots: 2, step: 1, spread: false, wide: false, chained: 40 };
    let first = pool_of(random, vocabulary, shape);
    let rows = MOST_ROWS - rows + random.below(3);
    let second = pool_of(random, vocabulary, PoolShape { rows: rows.min(MOST_ROWS), ..shape });
    let second = moved_behind(&first, second);
    (first, second)
}
