//! Sets of rules: the rules laid end to end, and the number of entries of each.

use super::entry::Entry;
use super::files::put;
use super::part::part_of_rules;
use super::rule::{accepted_rule, ENTRY_WORDS};
use super::table::{accepted_table, Row, ROW_WORDS};
use super::tests_of_line::test;
use super::verdict::Evaluation;
use crate::answer::{Answer, Refusal};

pub const MOST_RULES: usize = 32;

pub fn check_set(rules: &[u32], counts: &[u32]) -> Answer {
    accepted_set(rules, counts).map(|set| set.len()).into()
}

pub fn set_verdicts(rules: &[u32], counts: &[u32], pool: &[u32], verdicts: &mut [u8]) -> Answer {
    put(verdicts_of(rules, counts, pool), verdicts).into()
}

pub fn set_part(rules: &[u32], counts: &[u32], table: &[u32], mode: u32, part: &mut [u32]) -> Answer {
    put(set_part_of(rules, counts, table, mode), part).map(|words| words / ROW_WORDS).into()
}

/// One byte for each rule.
fn verdicts_of(rules: &[u32], counts: &[u32], pool: &[u32]) -> Result<Vec<u8>, Refusal> {
    let (set, rows) = accepted(rules, counts, pool)?;
    Ok(verdicts_on(&set, &rows))
}

/// The same of an accepted set on an accepted pool.
pub fn verdicts_on(set: &[Vec<Entry>], rows: &[Row]) -> Vec<u8> {
    let verdict = |entries: &Vec<Entry>| Evaluation::of_rule(entries, rows).verdict(0, &mut vec![]);
    set.iter().map(|entries| verdict(entries) as u8).collect()
}

/// The words of the part.
pub fn set_part_of(rules: &[u32], counts: &[u32], table: &[u32], mode: u32) -> Result<Vec<u32>, Refusal> {
    let (set, rows) = accepted(rules, counts, table)?;
    part_of_rules(&set, &rows, mode)
}

/// Set before table.
fn accepted(rules: &[u32], counts: &[u32], table: &[u32]) -> Result<(Vec<Vec<Entry>>, Vec<Row>), Refusal> {
    Ok((accepted_set(rules, counts)?, accepted_table(table)?))
}

/// The entries of each rule of an accepted set, or the refusal of the set.
pub fn accepted_set(rules: &[u32], counts: &[u32]) -> Result<Vec<Vec<Entry>>, Refusal> {
    check_counts(rules.len(), counts)?;
    let (mut set, mut first) = (vec![], 0);
    for rule in rules_of(rules, counts) {
        let in_the_set = |refusal: Refusal| Refusal { place: first + refusal.place, ..refusal };
        set.push(accepted_rule(rule).map_err(in_the_set)?);
        first += rule.len() / ENTRY_WORDS;
    }
    Ok(set)
}

/// Check 20, of a length in words.
fn check_counts(words: usize, counts: &[u32]) -> Result<(), Refusal> {
    // No sum of words is too large here.
    let entries: u128 = counts.iter().map(|&count| u128::from(count)).sum();
    test(20, !(1..=MOST_RULES).contains(&counts.len()) || entries * ENTRY_WORDS as u128 != words as u128)
}

/// The words of each rule of a set whose counts add up.
pub fn rules_of<'a>(rules: &'a [u32], counts: &[u32]) -> Vec<&'a [u32]> {
    let mut rest = rules;
    let next = |&count: &u32| {
        let (rule, others) = rest.split_at(count as usize * ENTRY_WORDS);
        rest = others;
        rule
    };
    counts.iter().map(next).collect()
}

#[cfg(test)]
mod tests {
    use super::*;

    /// Every root is at most 1; every root has a child that is below it.
    const TWO: [u32; 20] = [5, 1, 0, 1, 9, 0, 1, 1, 5, 1, 0, 1, 6, 2, 1, 1, 8, 1, 0, 0];

    /// The set with one word changed.
    fn changed(place: usize, word: u32) -> Vec<u32> {
        let mut rules = TWO.to_vec();
        rules[place] = word;
        rules
    }

    #[test]
    fn counts_add_up_or_are_20() {
        assert_eq!(check_set(&TWO, &[2, 3]), Answer::Done(2));
        for counts in [&[][..], &[2], &[3], &[2, 2], &[2, 4], &[u32::MAX, 6], &[2, 3 + (1 << 30)], &[6]] {
            assert_eq!(check_set(&TWO, counts), Answer::refused(20, 0), "{counts:?}");
        }
        for words in [17, 18, 19] {
            assert_eq!(check_set(&TWO[..words], &[2, 3]), Answer::refused(20, 0));
            assert_eq!(check_set(&TWO[..words], &[2, 2]), Answer::refused(20, 0));
        }
        assert_eq!(check_set(&[], &[]), Answer::refused(20, 0));
        assert_eq!(check_set(&TWO[..8], &[u32::MAX, 3]), Answer::refused(20, 0));
    }

    #[test]
    fn there_are_1_to_32() {
        let rules = |count: usize| TWO[..8].repeat(count);
        for count in [1, 2, MOST_RULES] {
            assert_eq!(check_set(&rules(count), &vec![2; count]), Answer::Done(count));
        }
        assert_eq!(check_set(&rules(33), &[2; 33]), Answer::refused(20, 0));
        let with_none = [vec![2; 32], vec![0]].concat();
        assert_eq!(check_set(&rules(32), &with_none), Answer::refused(20, 0));
    }

    #[test]
    fn each_rule_has_1_to_128_entries() {
        assert_eq!(check_set(&TWO[..8], &[2, 0]), Answer::refused(1, 2));
        assert_eq!(check_set(&TWO[..8], &[0, 2]), Answer::refused(1, 0));
        assert_eq!(check_set(&[], &[0]), Answer::refused(1, 0));
        let long = [&TWO[..8], &[7, 0, 1, 0].repeat(129)].concat();
        assert_eq!(check_set(&long, &[2, 129]), Answer::refused(1, 2));
    }

    #[test]
    fn places_count_from_the_first_entry_of_the_set() {
        assert_eq!(check_set(&changed(8, 0), &[2, 3]), Answer::refused(2, 2));
        assert_eq!(check_set(&changed(15, 65_536), &[2, 3]), Answer::refused(3, 3));
        // 7 of the first rule comes before 2 of the second.
        let mut rules = changed(5, 1);
        rules[8] = 0;
        assert_eq!(check_set(&rules, &[2, 3]), Answer::refused(7, 1));
    }

    #[test]
    fn children_count_from_the_first_entry_of_their_rule() {
        assert_eq!(check_set(&changed(1, 3), &[2, 3]), Answer::refused(4, 0));
        assert_eq!(check_set(&changed(13, 4), &[2, 3]), Answer::refused(4, 3));
    }

    #[test]
    fn one_byte_for_each_rule() {
        let root = [1, 1, 0, 0, 1, 1];
        let mut verdicts = [7; 3];
        assert_eq!(set_verdicts(&TWO, &[2, 3], &root, &mut verdicts), Answer::Done(2));
        assert_eq!(verdicts, [1, 0, 7]);
        assert_eq!(set_verdicts(&TWO, &[2, 3], &root, &mut verdicts[..1]), Answer::refused(17, 0));
        assert_eq!(set_verdicts(&TWO, &[2, 3], &root[..5], &mut []), Answer::refused(8, 0));
    }

    /// The full parts of each rule alone are one row and none: on that row rule 0 would be true.
    #[test]
    fn a_part_is_not_the_union_of_the_rules_parts() {
        let rules = [
            [6, 1, 0, 1],
            [5, 2, 1, 1],
            [8, 1, 0, 0],
            [2, 1, 5, 0],
            [5, 2, 0, 1],
            [3, 4, 3, 0],
            [9, 0, 0, 0],
            [9, 0, 1, 0],
            [6, 6, 0, 1],
            [7, 0, 0, 0],
        ]
        .concat();
        let rows = [[2, 1, 0, 0, 3, 1], [2, 2, 0, 0, 3, 3], [2, 3, 0, 0, 1, 0], [2, 4, 3, 1, 1, 3]].concat();
        let (first, second) = rules.split_at(12);
        let part_of = super::super::part::part_of;
        assert_eq!(part_of(first, &rows, 3), Ok(vec![]));
        assert_eq!(part_of(second, &rows, 3), Ok(rows[12..18].to_vec()));
        assert_eq!(set_part_of(&rules, &[3, 7], &rows, 3), Ok(rows[12..].to_vec()));
    }
}
