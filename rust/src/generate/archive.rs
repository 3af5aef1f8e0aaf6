//! Runs of words for the archive's order.

use super::damaged_table::{any_table, damaged_table};
use super::digits::renumbered_table;
use super::pools::pool;
use super::vocabulary::{word_of_any_class, Vocabulary};
use crate::checker::{columns_of, LEAST_VALUE, MOST_ROWS, ROW_WORDS};
use crate::random::Random;

/// Mostly whole rows; else with some words more or fewer.
pub fn any_run(random: &mut Random) -> Vec<u32> {
    let words = whole_rows(random);
    if random.chance(30) {
        with_a_rest(random, words)
    } else {
        words
    }
}

/// Tables that are accepted, damaged ones and words of every kind; at times the columns of one of these.
pub fn whole_rows(random: &mut Random) -> Vec<u32> {
    let mut words = match random.below(20) {
        0..5 => accepted_rows(random),
        5..8 => {
            let table = accepted_rows(random);
            damaged_table(random, &table)
        }
        8 => any_table(random),
        _ => {
            let rows = any_count(random);
            rows_of_every_kind(random, rows)
        }
    };
    words.truncate(words.len() / ROW_WORDS * ROW_WORDS);
    if random.chance(35) {
        words = columns_of(&words, ROW_WORDS).expect("whole rows");
    }
    words
}

/// An accepted table, its numbers mostly close together and at times far apart.
pub fn accepted_rows(random: &mut Random) -> Vec<u32> {
    let vocabulary = Vocabulary::new(random);
    let table = pool(random, &vocabulary);
    if random.chance(30) {
        renumbered_table(random, &table)
    } else {
        table
    }
}

/// At times about as many rows as a table may have, or far more: up to more than 65,536 words.
fn any_count(random: &mut Random) -> usize {
    match random.below(100) {
        0 => random.between(MOST_ROWS - 1, MOST_ROWS + 3),
        1 => random.between(MOST_ROWS + 1, 14 * MOST_ROWS),
        2..10 => random.between(40, 400),
        10..15 => 0,
        15..23 => 1,
        _ => random.between(2, 40),
    }
}

/// So many rows, of which each column has a kind of its own.
pub fn rows_of_every_kind(random: &mut Random, rows: usize) -> Vec<u32> {
    let columns: Vec<Vec<u32>> = (0..ROW_WORDS).map(|_| column(random, rows)).collect();
    (0..rows).flat_map(|row| columns.iter().map(move |column| column[row])).collect()
}

/// Equal words, mostly equal ones, rising or falling ones, small ones, those around 0 and the middle, limits, any.
fn column(random: &mut Random, rows: usize) -> Vec<u32> {
    let (kind, step) = (random.below(8), random.pick(&[1, 1, 2, 1_000, LEAST_VALUE]));
    let mut word = word_of_any_class(random);
    let mut next = || {
        word = match kind {
            0 => word,
            1 if random.chance(80) => word,
            2 => word.wrapping_add(step),
            3 => word.wrapping_sub(step),
            4 => random.below(10) as u32,
            5 => random.pick(&[0, LEAST_VALUE]).wrapping_add(random.pick(&[0, 1, u32::MAX])),
            6 => word_of_any_class(random),
            _ => random.word(),
        };
        word
    };
    (0..rows).map(|_| next()).collect()
}

/// Whole rows with 1 to 5 words more or fewer.
fn with_a_rest(random: &mut Random, mut words: Vec<u32>) -> Vec<u32> {
    let rest = random.between(1, ROW_WORDS - 1);
    if words.is_empty() || random.chance(50) {
        words.extend(random.words(rest));
    } else {
        words.truncate(words.len() - rest);
    }
    words
}

#[cfg(test)]
mod tests {
    use super::*;
    use crate::checker::check_table;

    #[test]
    fn runs_are_of_all_kinds() {
        let (mut rests, mut accepted, mut long) = ([0; ROW_WORDS], 0, 0);
        for seed in 0..10_000 {
            let random = &mut Random::new(seed);
            assert_eq!(check_table(&accepted_rows(random)).number(), 0, "seed {seed}");
            let whole = whole_rows(random);
            assert!(whole.len().is_multiple_of(ROW_WORDS), "seed {seed}: {whole:?}");
            let run = any_run(random);
            rests[run.len() % ROW_WORDS] += 1;
            accepted += (check_table(&run).number() == 0) as u32;
            long += (run.len() > MOST_ROWS * ROW_WORDS) as u32;
        }
        assert!(rests.iter().all(|&runs| runs >= 400), "{rests:?}");
        assert!((1_500..5_000).contains(&accepted) && long >= 100, "{accepted} accepted, {long} long ones");
    }
}
