//! The archive's order worked by hand.

use super::*;
use crate::answer::Answer;

const D1: [[u32; 6]; 3] = [[1, 1, 0, 0, 1, 11], [1, 2, 1, 1, 2, 2], [1, 3, 1, 1, 3, 101]];
/// The value 2 is 9 less than 11.
const D1_COLUMNS: [[u32; 3]; 6] =
    [[1, 0, 0], [1, 1, 1], [0, 1, 0], [0, 1, 0], [1, 1, 1], [11, 4_294_967_287, 99]];

const HALF: u32 = 2_147_483_648;
const LARGEST: u32 = 4_294_967_295;

/// Fails unless rows of so many words become these columns, and the columns the rows.
fn are_one_another(row_words: usize, table: &[u32], columns: &[u32]) {
    assert_eq!(columns_of(table, row_words).as_deref(), Ok(columns), "{table:?}");
    assert_eq!(table_of(columns, row_words).as_deref(), Ok(table), "{columns:?}");
}

#[test]
fn a_pool() {
    assert_eq!(check_table(&D1.concat()), Answer::Done(3));
    are_one_another(6, &D1.concat(), &D1_COLUMNS.concat());
}

/// The columns of the pool, taken for a table, have columns of their own.
#[test]
fn a_table_that_is_refused() {
    let table = [[1, 0, 0, 1, 1, 1], [0, 1, 0, 0, 1, 0], [1, 1, 1, 11, 4_294_967_287, 99]].concat();
    assert_eq!(table, D1_COLUMNS.concat());
    assert_eq!(check_table(&table), Answer::refused(9, 0));
    let columns =
        [[1, LARGEST, 1], [0, 1, 0], [0, 0, 1], [1, LARGEST, 11], [1, 0, 4_294_967_286], [1, LARGEST, 99]];
    are_one_another(6, &table, &columns.concat());
}

#[test]
fn differences_wrap_both_ways() {
    let table = [[0, 1, 0, LARGEST, HALF, 5], [1, 0, HALF, 0, 0, 5], [0, LARGEST, 0, LARGEST, LARGEST, 4]];
    let columns = [
        [0, 1, LARGEST],
        [1, LARGEST, LARGEST],
        [0, HALF, HALF],
        [LARGEST, 1, LARGEST],
        [HALF, HALF, LARGEST],
        [5, 0, LARGEST],
    ];
    are_one_another(6, &table.concat(), &columns.concat());
    // Sums that pass the largest word several times.
    are_one_another(1, &[LARGEST, LARGEST - 1, LARGEST - 2, 0], &[LARGEST, LARGEST, LARGEST, 3]);
    are_one_another(1, &[HALF, 0, HALF, HALF - 1], &[HALF, HALF, HALF, LARGEST]);
}

#[test]
fn no_rows_and_one_row() {
    for row_words in [1, 3, 6] {
        are_one_another(row_words, &[], &[]);
    }
    are_one_another(6, &[7, 0, LARGEST, HALF, 7, 7], &[7, 0, LARGEST, HALF, 7, 7]);
    are_one_another(1, &[9], &[9]);
}

#[test]
fn other_numbers_of_columns() {
    are_one_another(1, &[5, 7, 7, 2], &[5, 2, 0, 4_294_967_291]);
    are_one_another(2, &[1, 10, 2, 20], &[1, 1, 10, 10]);
    are_one_another(
        3,
        &[1, 10, 100, 2, 9, 100, 4, 0, 300],
        &[1, 1, 2, 10, LARGEST, LARGEST - 8, 100, 0, 200],
    );
    assert_eq!(columns_of(&[1, 2, 3, 4], 3), Err(crate::answer::Refusal { number: 28, place: 0 }));
    assert_eq!(table_of(&[1, 2, 3, 4], 3), Err(crate::answer::Refusal { number: 28, place: 0 }));
}

/// What the calls answer to so many words in so much room, filled with 7. Of a refused call nothing is written.
fn answers(words: usize, room: usize) -> [Answer; 2] {
    let calls: [fn(&[u32], &mut [u32]) -> Answer; 2] = [to_columns, from_columns];
    calls.map(|call| {
        let mut output = vec![7; room];
        let answer = call(&vec![0; words], &mut output);
        let written = if let Answer::Done(written) = answer { written } else { 0 };
        let (answered, past) = output.split_at(written);
        assert!(answered.iter().all(|&word| word == 0) && past.iter().all(|&word| word == 7), "{output:?}");
        answer
    })
}

#[test]
fn each_refusal() {
    for words in [1, 2, 3, 4, 5, 7, 11, 13, 6_145] {
        // 28 comes first: in no room, in room for the whole rows, for all words but one, for more.
        for room in [0, words / 6 * 6, words - 1, words, words + 9] {
            assert_eq!(answers(words, room), [Answer::refused(28, 0); 2], "{words} in {room}");
        }
    }
    for (words, room) in [(6, 0), (6, 1), (6, 5), (12, 6), (12, 11), (6_150, 6_149)] {
        assert_eq!(answers(words, room), [Answer::refused(17, 0); 2], "{words} in {room}");
    }
}

/// The value is the number of words. There may be any number of rows, and the room need not be whole rows.
#[test]
fn room_enough() {
    for (words, room) in [(0, 0), (0, 1), (0, 6), (6, 6), (6, 7), (12, 12), (12, 600), (6_150, 6_150)] {
        assert_eq!(answers(words, room), [Answer::Done(words); 2], "{words} in {room}");
    }
}
