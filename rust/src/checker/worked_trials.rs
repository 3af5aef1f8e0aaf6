//! Trials worked by hand.

use super::*;
use crate::answer::Trial;

/// Some root named 1 has the value 2; every row named 2 under a root named 1 is at most 5.
const RULES: [u32; 20] = [6, 1, 0, 1, 7, 0, 1, 2, 5, 1, 0, 1, 5, 2, 1, 2, 9, 1, 1, 5];
const COUNTS: [u32; 2] = [2, 3];
const POOL: [[u32; 6]; 3] = [[1, 2, 0, 0, 1, 1], [1, 4, 2, 1, 2, 3], [3, 2, 0, 0, 1, 7]];
/// A word that a kind does not need.
const ANY: u32 = u32::MAX;

/// The only row of the pool that is no root.
const POOL_CHILD: [u32; 7] = [ADD, 1, 4, 2, 1, 2, 3];
/// A good row for each place that an added one can have: first, between two devices, last.
const FIRST: [u32; 7] = [ADD, 1, 1, 0, 0, 3, 0];
const BETWEEN: [u32; 7] = [ADD, 2, 1, 0, 0, 1, 2];
const LAST: [u32; 7] = [ADD, 3, 9, 2, 1, 2, 6];

fn set_value(device: u32, at: u32, value: u32) -> [u32; 7] {
    [SET, device, at, ANY, ANY, ANY, value]
}

fn remove(device: u32, at: u32) -> [u32; 7] {
    [REMOVE, device, at, ANY, ANY, ANY, ANY]
}

fn refused(number: u32, steps: usize, rows: usize) -> Trial {
    Trial { number, place: steps, steps, rows }
}

/// The answer, the working table and the verdicts, with room enough.
fn trial(pool: &[[u32; 6]], steps: &[[u32; 7]]) -> (Trial, Vec<[u32; 6]>, Vec<u8>) {
    let (mut table, mut verdicts) = (vec![ANY; MOST_ROWS * ROW_WORDS], vec![7; 2 * steps.len()]);
    let answer = try_plan(&RULES, &COUNTS, &pool.concat(), &steps.concat(), &mut table, &mut verdicts);
    verdicts.truncate(2 * answer.steps);
    (answer, table.as_chunks().0[..answer.rows].to_vec(), verdicts)
}

/// The number of a step's refusal, as the only step and behind others; 0 if it is done.
fn number(step: [u32; 7]) -> u32 {
    let alone = trial(&POOL, &[step]).0;
    let (later, rows, verdicts) = trial(&POOL, &[set_value(3, 2, 8), remove(1, 4), POOL_CHILD, step, step]);
    assert_eq!(alone.number, if later.place == 4 { 0 } else { later.number }, "{step:?}");
    if alone.number != 0 {
        assert_eq!((alone, later), (refused(alone.number, 0, 3), refused(alone.number, 3, 3)));
        assert_eq!((rows[2][5], verdicts.len()), (8, 6));
    }
    alone.number
}

#[test]
fn no_steps_leave_the_pool() {
    assert_eq!(trial(&POOL, &[]), (Trial { number: 0, place: 0, steps: 0, rows: 3 }, POOL.to_vec(), vec![]));
    assert_eq!(trial(&[], &[]).0, Trial { number: 0, place: 0, steps: 0, rows: 0 });
}

#[test]
fn verdicts_are_those_after_each_step() {
    let steps = [set_value(1, 2, 2), set_value(1, 4, 6), remove(1, 4), set_value(1, 2, 0)];
    let (answer, rows, verdicts) = trial(&POOL, &steps);
    assert_eq!(answer, Trial { number: 0, place: 0, steps: 4, rows: 2 });
    assert_eq!(rows, [[1, 2, 0, 0, 1, 0], [3, 2, 0, 0, 1, 7]]);
    assert_eq!(verdicts, [1, 1, 1, 0, 1, 1, 0, 1]);
}

#[test]
fn a_row_is_added_in_its_place() {
    let (answer, rows, verdicts) = trial(&POOL, &[LAST, BETWEEN, FIRST]);
    assert_eq!(answer, Trial { number: 0, place: 0, steps: 3, rows: 6 });
    let added = [FIRST, BETWEEN, LAST].map(|step| [step[1], step[2], step[3], step[4], step[5], step[6]]);
    assert_eq!(rows, [added[0], POOL[0], POOL[1], added[1], POOL[2], added[2]]);
    assert_eq!(verdicts, [0, 0, 1, 0, 1, 0]);
    assert_eq!(trial(&[], &[BETWEEN, [ADD, 2, 2, 1, 1, 2, 5]]).2, [1, 1, 1, 1]);
}

#[test]
fn kinds_are_1_to_3_and_steps_are_whole() {
    for kind in [0, 4, 7, 257, ANY] {
        assert_eq!(number([kind, 1, 4, 2, 1, 2, 3]), 23);
        assert_eq!(number([kind, 0, 0, 0, 0, 0, 0]), 23);
    }
    for step in [set_value(1, 4, 0), set_value(1, 9, 0), LAST, remove(1, 4), remove(1, 2)] {
        for words in 1..STEP_WORDS {
            let rows = rows_of(&POOL.concat());
            assert_eq!(rows_after(&rows, &step[..words]), Err(23));
            let steps = [&set_value(1, 2, 2), &step[..words]].concat();
            let (mut table, mut verdicts) = ([7; 24], [7; 5]);
            let answer = try_plan(&RULES, &COUNTS, &POOL.concat(), &steps, &mut table, &mut verdicts);
            assert_eq!((answer, verdicts), (refused(23, 1, 3), [1, 1, 7, 7, 7]));
        }
    }
}

#[test]
fn a_row_that_is_set_or_removed_is_there() {
    for (device, at) in [(1, 3), (2, 2), (3, 4), (0, 2), (1, 0), (0, 0), (ANY, 2)] {
        assert_eq!(number(set_value(device, at, 0)), 24);
        assert_eq!(number(set_value(device, at, ANY)), 24);
        assert_eq!(number(remove(device, at)), 24);
    }
    assert_eq!(number(remove(1, 2)), 25);
    // Under a row of the same at in another device there is nothing.
    assert_eq!(trial(&POOL, &[remove(3, 2), remove(1, 4), remove(1, 2)]).1, [[0; 6]; 0]);
    assert_eq!(trial(&POOL, &[remove(1, 4), remove(1, 4)]).0, refused(24, 1, 2));
}

#[test]
fn an_added_row_passes_the_tables_checks() {
    for step in [[0, 9, 2, 1, 2, 6], [3, 0, 2, 1, 2, 6], [3, 9, 2, 1, 0, 6]] {
        assert_eq!(number([&[ADD], &step[..]].concat().try_into().expect("seven words")), 9);
    }
    // There already: with the same words, with others, and with a name out of range.
    assert_eq!([number(POOL_CHILD), number([ADD, 1, 4, 9, 9, 9, 9])], [10, 10]);
    assert_eq!(number([ADD, 1, 4, 2, 1, ANY, 3]), 9);
    // No parent: none there, its own, of another device, a later one, with a wrong depth.
    for (at, up, deep) in [(9, 3, 1), (9, 9, 1), (9, 4, 1), (1, 2, 1), (9, 3, 5)] {
        assert_eq!(number([ADD, 3, at, up, deep, 2, 6]), 11);
    }
    for (up, deep) in [(0, 1), (2, 0), (2, 2), (0, ANY), (2, ANY)] {
        assert_eq!(number([ADD, 3, 9, up, deep, 2, 6]), 26);
    }
    // Equal siblings: of a device, of two; a wrong depth comes first.
    assert_eq!([number([ADD, 1, 9, 2, 1, 2, 3]), number([ADD, 2, 9, 0, 0, 1, 1])], [12, 12]);
    assert_eq!([number([ADD, 1, 9, 2, 2, 2, 3]), number([ADD, 2, 9, 0, 1, 1, 1])], [26, 26]);
    // Under another row it is none.
    assert_eq!(number([ADD, 3, 9, 2, 1, 2, 3]), 0);
}

#[test]
fn a_row_that_is_set_passes_them_too() {
    // The value that it has already; that of another device's root.
    assert_eq!(number(set_value(1, 2, 1)), 0);
    assert_eq!(trial(&POOL, &[set_value(1, 2, 7)]).0, refused(12, 0, 3));
}

/// The largest is above 5 and the least is not, nor is -1; 9 is for device, at and name.
#[test]
fn any_word_is_a_value() {
    for (value, at_most_5) in [(MOST_VALUE, 0), (LEAST_VALUE, 1), (u32::MAX, 1)] {
        assert_eq!(trial(&POOL, &[set_value(1, 4, value)]).2, [0, at_most_5]);
        assert_eq!(trial(&POOL, &[[ADD, 3, 9, 2, 1, 2, value]]).2, [0, at_most_5]);
    }
}

/// A child is removed, then its parent: the child has no parent any more.
#[test]
fn steps_see_what_the_steps_before_them_left() {
    let steps = [remove(1, 4), remove(1, 2), POOL_CHILD];
    assert_eq!(trial(&POOL, &steps).0, refused(11, 2, 1));
    let steps = [remove(1, 2), remove(1, 4)];
    assert_eq!(trial(&POOL, &steps).0, refused(25, 0, 3));
    let steps = [set_value(3, 2, 6), set_value(1, 2, 7), set_value(3, 2, 7)];
    assert_eq!(trial(&POOL, &steps).0, refused(12, 2, 3));
}

/// The same with buffers of these lengths: the answer, and the bytes.
fn in_room(steps: &[[u32; 7]], words: usize, bytes: usize) -> (Trial, Vec<u8>) {
    let (mut table, mut verdicts) = (vec![ANY; words], vec![7; bytes]);
    let answer = try_plan(&RULES, &COUNTS, &POOL.concat(), &steps.concat(), &mut table, &mut verdicts);
    let past = answer.rows * ROW_WORDS;
    assert!(table[past..].iter().all(|&word| word == ANY), "{table:?}");
    (answer, verdicts)
}

#[test]
fn short_outputs_are_tested_last() {
    for words in [18, 19, 23] {
        assert_eq!(in_room(&[LAST], words, 2), (refused(17, 0, 3), vec![7, 7]));
        // An equal sibling is 12; no other kind needs more words.
        assert_eq!(in_room(&[[ADD, 1, 9, 2, 1, 2, 3]], words, 0).0, refused(12, 0, 3));
        assert_eq!(in_room(&[set_value(1, 2, 2), remove(1, 4)], words, 4).0.steps, 2);
        assert_eq!(in_room(&[remove(1, 4), LAST], words, 4).0.steps, 2);
        assert_eq!(in_room(&[remove(1, 2)], words, 0).0, refused(25, 0, 3));
    }
    assert_eq!(in_room(&[LAST], 24, 2).1, [0, 0]);
    // Two of three bytes are no verdicts.
    let steps = [set_value(1, 2, 2), set_value(1, 4, 6)];
    assert_eq!(in_room(&steps, 18, 3), (refused(17, 1, 3), vec![1, 1, 7]));
    assert_eq!(in_room(&steps, 18, 1), (refused(17, 0, 3), vec![7]));
    assert_eq!(in_room(&[], 18, 0).0, Trial { number: 0, place: 0, steps: 0, rows: 3 });
}

/// Set, pool, room for the pool; the steps and the verdicts are not looked at.
#[test]
fn refusals_before_the_steps() {
    let refused = |rules: &[u32], counts: &[u32], pool: &[u32], words: usize| {
        let (mut table, mut verdicts) = (vec![ANY; words], vec![7; 1]);
        let answer = try_plan(rules, counts, pool, &[1, 2, 3], &mut table, &mut verdicts);
        assert!(table.iter().all(|&word| word == ANY) && verdicts == [7]);
        assert_eq!((answer.steps, answer.rows), (0, 0));
        (answer.number, answer.place)
    };
    let (pool, mut unbound) = (POOL.concat(), RULES);
    unbound[17] = 2;
    let out_of_range = [&POOL[..2], &[[3, 2, 0, 0, 0, 7]]].concat().concat();
    assert_eq!(refused(&unbound, &[2, 2], &out_of_range, 0), (20, 0));
    assert_eq!(refused(&unbound, &COUNTS, &out_of_range, 0), (7, 4));
    assert_eq!(refused(&RULES, &COUNTS, &out_of_range, 0), (9, 2));
    assert_eq!(refused(&RULES, &COUNTS, &pool[..17], 0), (8, 0));
    for words in [0, 12, 17] {
        assert_eq!(refused(&RULES, &COUNTS, &pool, words), (17, 0));
    }
}

/// Of a pool without rows no word is needed, and a refused step leaves none.
#[test]
fn an_empty_pool_needs_no_room() {
    let answer = try_plan(&RULES, &COUNTS, &[], &[ADD, 0, 1, 0, 0, 1, 1], &mut [], &mut []);
    assert_eq!(answer, refused(9, 0, 0));
    let answer = try_plan(&RULES, &COUNTS, &[], &BETWEEN, &mut [], &mut [7; 2]);
    assert_eq!(answer, refused(17, 0, 0));
}

#[test]
fn a_full_table_takes_no_row_more() {
    let pool: Vec<[u32; 6]> = (1..=MOST_ROWS as u32).map(|at| [1, at, 0, 0, 1, at]).collect();
    let last = MOST_ROWS as u32;
    // Whatever else is wrong with it: out of range, there already, without parent, an equal sibling.
    for row in [[1, 0, 0, 0, 1, 0], [1, 9, 0, 0, 1, 0], [2, 1, 9, 1, 1, 0], [2, 1, 0, 0, 1, 9]] {
        let step = [&[ADD], &row[..]].concat().try_into().expect("seven words");
        assert_eq!(trial(&pool, &[step]).0, refused(8, 0, MOST_ROWS));
    }
    let again = [ADD, 2, 1, 0, 0, 1, 0];
    let (answer, rows, _) = trial(&pool, &[remove(1, last), again, set_value(1, 1, 0), again]);
    assert_eq!(answer, refused(12, 2, MOST_ROWS));
    assert_eq!(rows[MOST_ROWS - 1], [2, 1, 0, 0, 1, 0]);
}
