//! Rows and bytes sent for the rule book: one part for the set from each device, beside a part for each rule.

use gabzeril_tests::answer::Answer;
use gabzeril_tests::checker::{devices_of, rows_of, words_of, ROW_WORDS};
use gabzeril_tests::ffi;
use gabzeril_tests::generate::Set;

use crate::inputs::{devices, one_device, rule_book};
use crate::sent::{joined, part_of};

const ROW_BYTES: usize = ROW_WORDS * size_of::<u32>();

pub fn print() {
    println!("## Rows and bytes sent for a rule book of 20\n");
    println!("The rows of all devices, as words of four bytes. All parts keep the verdict of each rule.\n");
    println!("| devices | mode | rows, a part for each rule | rows, one part for the set | bytes, a part for each rule | bytes, one part for the set | parts / part |");
    println!("|-|-:|-:|-:|-:|-:|-:|");
    let pool = devices(1_020, 1);
    let small: Vec<Vec<u32>> = devices_of(&pool).into_iter().map(|device| device.to_vec()).collect();
    print_lines("340 of three rows", &small);
    print_lines("10 of 102 rows", &large());
}

const LARGE: u32 = 10;
/// A name that no rule of the book has.
const OTHER: u32 = 6;

/// Devices as `one_device`, with numbers and root values of their own. Every second row without children has a
/// name that is in no rule; the values of the last device are above two of the rules' limits.
fn large() -> Vec<Vec<u32>> {
    let device = |number: u32| {
        let mut rows = rows_of(&one_device(102));
        for row in &mut rows {
            row.device = number;
            match row.name {
                1 => row.value = 100 + number,
                5 if row.at % 2 == 0 => row.name = OTHER,
                3.. if number == LARGE => row.value += 1_000,
                _ => {}
            }
        }
        words_of(&rows)
    };
    (1..=LARGE).map(device).collect()
}

fn print_lines(on: &str, devices: &[Vec<u32>]) {
    let set = rule_book();
    let verdicts = verdicts_of(&set, &devices.concat());
    for mode in 1..=3 {
        let (each, one) =
            (rows_for_each(&set, &verdicts, devices, mode), rows_for_set(&set, &verdicts, devices, mode));
        let ratio = each as f64 / one.max(1) as f64;
        println!(
            "| {on} | {mode} | {each} | {one} | {} | {} | {ratio:.1} |",
            each * ROW_BYTES,
            one * ROW_BYTES
        );
    }
}

fn verdicts_of(set: &Set, pool: &[u32]) -> Vec<u8> {
    let mut verdicts = vec![0; set.counts.len()];
    assert_eq!(ffi::set_verdicts(&set.rules, &set.counts, pool, &mut verdicts), Answer::Done(verdicts.len()));
    verdicts
}

/// The rows of all parts for the set.
fn rows_for_set(set: &Set, verdicts: &[u8], devices: &[Vec<u32>], mode: u32) -> usize {
    let part = |device: &Vec<u32>| {
        part_of(device, |part| ffi::set_part(&set.rules, &set.counts, device, mode, part))
    };
    let pool = joined(&devices.iter().map(part).collect::<Vec<_>>()).expect("no more rows than the dump");
    assert_eq!(verdicts_of(set, &pool), verdicts, "the parts keep the verdicts");
    pool.len() / ROW_WORDS
}

/// The rows of all parts for each rule.
fn rows_for_each(set: &Set, verdicts: &[u8], devices: &[Vec<u32>], mode: u32) -> usize {
    let rows = |(rule, &verdict): (&[u32], &u8)| {
        let part = |device: &Vec<u32>| part_of(device, |part| ffi::part(rule, device, mode, part));
        let pool = joined(&devices.iter().map(part).collect::<Vec<_>>()).expect("no more rows than the dump");
        assert_eq!(ffi::verdict(rule, &pool), Answer::Done(verdict.into()), "the parts keep the verdict");
        pool.len() / ROW_WORDS
    };
    set.each().into_iter().zip(verdicts).map(rows).sum()
}
