//! Folding worked by hand.

use super::*;
use crate::answer::Answer;

/// Rows of device 1: at, up, deep, name and value.
type Given<'a> = &'a [[u32; 5]];

fn table(rows: Given) -> Vec<u32> {
    rows.iter().flat_map(|&[at, up, deep, name, value]| [1, at, up, deep, name, value]).collect()
}

/// Fails unless these rows become those, in a buffer that is longer than both; and those stay as they are.
fn folds(given: Given, left: Given) {
    for rows in [given, left] {
        let (words, expected) = (table(rows), table(left));
        let mut output = vec![7; words.len() + 9];
        assert_eq!(fold(&words, &mut output), Answer::Done(left.len()), "{given:?}");
        let (answer, past) = output.split_at(expected.len());
        assert_eq!(answer, expected, "{given:?}");
        assert!(past.iter().all(|&word| word == 7), "{given:?}");
    }
    assert_eq!(check_table(&table(left)), Answer::Done(left.len()), "{left:?}");
}

/// Name 1 is the device, 3 an interface, 4 its speed, 5 its VLAN.
#[test]
fn an_interface_in_two_blocks() {
    folds(
        &[[1, 0, 0, 1, 11], [2, 1, 1, 3, 101], [3, 2, 2, 4, 1_000], [4, 1, 1, 3, 101], [5, 4, 2, 5, 20]],
        &[[1, 0, 0, 1, 11], [2, 1, 1, 3, 101], [3, 2, 2, 4, 1_000], [5, 2, 2, 5, 20]],
    );
}

/// The speed stands in both blocks: 6 and 3 become equal siblings by the folding of 4.
#[test]
fn children_that_become_equal() {
    folds(
        &[
            [1, 0, 0, 1, 11],
            [2, 1, 1, 3, 101],
            [3, 2, 2, 4, 1_000],
            [4, 1, 1, 3, 101],
            [5, 4, 2, 5, 20],
            [6, 4, 2, 4, 1_000],
        ],
        &[[1, 0, 0, 1, 11], [2, 1, 1, 3, 101], [3, 2, 2, 4, 1_000], [5, 2, 2, 5, 20]],
    );
}

/// 2 into 1, then 4 into 3, then 6 into 5; 8 stays, and moves under 5.
#[test]
fn three_levels() {
    folds(
        &[
            [1, 0, 0, 1, 1],
            [2, 0, 0, 1, 1],
            [3, 1, 1, 2, 2],
            [4, 2, 1, 2, 2],
            [5, 3, 2, 3, 3],
            [6, 4, 2, 3, 3],
            [7, 5, 3, 4, 4],
            [8, 6, 3, 4, 5],
        ],
        &[[1, 0, 0, 1, 1], [3, 1, 1, 2, 2], [5, 3, 2, 3, 3], [7, 5, 3, 4, 4], [8, 5, 3, 4, 5]],
    );
}

#[test]
fn equal_roots() {
    folds(&[[3, 0, 0, 9, 0], [4, 0, 0, 9, 0]], &[[3, 0, 0, 9, 0]]);
    folds(
        &[[3, 0, 0, 9, 0], [5, 0, 0, 9, 1], [6, 0, 0, 9, 0], [8, 6, 1, 9, 0], [9, 5, 1, 9, 0]],
        &[[3, 0, 0, 9, 0], [5, 0, 0, 9, 1], [8, 3, 1, 9, 0], [9, 5, 1, 9, 0]],
    );
}

/// All of them hang under the first in the end, whichever two are folded first.
#[test]
fn three_equal_siblings() {
    let given: Given = &[
        [1, 0, 0, 1, 1],
        [2, 1, 1, 2, 5],
        [3, 1, 1, 2, 5],
        [4, 1, 1, 2, 5],
        [5, 4, 2, 3, 1],
        [6, 3, 2, 3, 2],
        [7, 2, 2, 3, 3],
        [8, 4, 2, 3, 2],
    ];
    let left: Given = &[[1, 0, 0, 1, 1], [2, 1, 1, 2, 5], [5, 2, 2, 3, 1], [6, 2, 2, 3, 2], [7, 2, 2, 3, 3]];
    folds(given, left);
    let rows = rows_of(&table(given));
    assert_eq!(equal_siblings(&rows).collect::<Vec<_>>(), [[1, 2], [1, 3], [2, 3]]);
    for pair in equal_siblings(&rows) {
        assert_eq!(words_of(&folded_rows(&with_pair_folded(&rows, pair))), table(left), "{pair:?}");
    }
}

/// The middle one goes into the last of three, then that one into the first.
#[test]
fn one_pair() {
    let rows = rows_of(&table(&[[1, 0, 0, 1, 1], [2, 0, 0, 1, 1], [3, 2, 1, 1, 1], [4, 0, 0, 1, 1]]));
    let left = |pair| words_of(&with_pair_folded(&rows, pair));
    assert_eq!(left([0, 1]), table(&[[1, 0, 0, 1, 1], [3, 1, 1, 1, 1], [4, 0, 0, 1, 1]]));
    assert_eq!(left([0, 3]), table(&[[1, 0, 0, 1, 1], [2, 0, 0, 1, 1], [3, 2, 1, 1, 1]]));
    assert_eq!(left([1, 3]), table(&[[1, 0, 0, 1, 1], [2, 0, 0, 1, 1], [3, 2, 1, 1, 1]]));
}

/// Blocks that differ in the value or in the name alone, and values that differ in their sign alone.
#[test]
fn what_is_not_equal() {
    for other in [[2, 0, 0, 1, 2], [2, 0, 0, 2, 1], [2, 0, 0, 1, 2_147_483_649], [2, 0, 0, 1, 4_294_967_295]]
    {
        let rows = [[1, 0, 0, 1, 1], other, [3, 1, 1, 5, 5], [4, 2, 1, 5, 5]];
        folds(&rows, &rows);
    }
}

/// Cousins, a child and its parent, a root and a row under another.
#[test]
fn different_parents() {
    let rows = [
        [1, 0, 0, 1, 1],
        [2, 0, 0, 1, 2],
        [3, 1, 1, 1, 1],
        [4, 2, 1, 1, 1],
        [5, 3, 2, 1, 1],
        [6, 2, 1, 1, 2],
    ];
    folds(&rows, &rows);
}

/// Rows that no longer are siblings of equal ones: 3 and 4 both have the child 7, and 5 goes into 3.
#[test]
fn into_one_of_several_parents() {
    folds(
        &[
            [1, 0, 0, 1, 1],
            [3, 1, 1, 2, 1],
            [4, 1, 1, 2, 2],
            [5, 1, 1, 2, 1],
            [6, 4, 2, 7, 7],
            [7, 5, 2, 7, 7],
            [8, 6, 3, 1, 1],
            [9, 7, 3, 1, 1],
        ],
        &[
            [1, 0, 0, 1, 1],
            [3, 1, 1, 2, 1],
            [4, 1, 1, 2, 2],
            [6, 4, 2, 7, 7],
            [7, 3, 2, 7, 7],
            [8, 6, 3, 1, 1],
            [9, 7, 3, 1, 1],
        ],
    );
}

#[test]
fn nothing_to_fold() {
    folds(&[], &[]);
    folds(&[[1, 0, 0, 1, 1]], &[[1, 0, 0, 1, 1]]);
    let path = [[1, 0, 0, 1, 1], [2, 1, 1, 1, 1], [3, 2, 2, 1, 1], [4, 3, 3, 1, 1]];
    folds(&path, &path);
}

/// The parent that a row moves under stands far above it, and may have no other children.
#[test]
fn a_parent_far_above() {
    folds(
        &[
            [10, 0, 0, 1, 1],
            [20, 0, 0, 1, 2],
            [30, 20, 1, 1, 1],
            [40, 20, 1, 1, 2],
            [60_000, 0, 0, 1, 1],
            [65_535, 60_000, 1, 1, 1],
        ],
        &[[10, 0, 0, 1, 1], [20, 0, 0, 1, 2], [30, 20, 1, 1, 1], [40, 20, 1, 1, 2], [65_535, 10, 1, 1, 1]],
    );
}

/// What is answered to these rows in so much room. A refused call writes nothing.
fn answer(words: &[u32], room: usize) -> Answer {
    let mut output = vec![7; room];
    let answer = fold(words, &mut output);
    assert!(answer.number() == 0 || output.iter().all(|&word| word == 7), "{output:?}");
    answer
}

const TWO_EQUAL: [[u32; 5]; 3] = [[1, 0, 0, 1, 1], [2, 0, 0, 1, 1], [3, 2, 1, 1, 1]];

/// The answer is shorter than what is given: 17 asks for the rows left alone.
#[test]
fn room_for_what_is_left() {
    let words = table(&TWO_EQUAL);
    for room in [12, 13, 17, 18, 19, 600] {
        assert_eq!(answer(&words, room), Answer::Done(2), "{room}");
    }
    for room in [0, 1, 6, 11] {
        assert_eq!(answer(&words, room), Answer::refused(17, 0), "{room}");
    }
    assert_eq!(answer(&[], 0), Answer::Done(0));
}

/// Each with equal siblings before and behind it, which are not refused, in room enough and without room.
#[test]
fn refusals_of_the_table() {
    let equal = rows_of(&table(&[[4, 0, 0, 1, 1], [5, 0, 0, 1, 1]]));
    let cases: [(Row, u32); 6] = [
        (Row { name: 0, ..equal[1] }, 9),
        (Row { device: 65_536, ..equal[1] }, 9),
        (Row { at: 4, ..equal[1] }, 10),
        (Row { up: 5, deep: 1, ..equal[1] }, 11),
        (Row { up: 4, deep: 0, ..equal[1] }, 26),
        (Row { device: 2, ..equal[1] }, 14),
    ];
    for (row, number) in cases {
        let words = [table(&TWO_EQUAL), words_of(&[equal[0], row])].concat();
        for room in [0, 100] {
            assert_eq!(answer(&words, room), Answer::refused(number, 4), "{row:?}");
            assert_eq!(answer(&words[..29], room), Answer::refused(8, 0), "{row:?}");
        }
    }
}

/// 14 is tested behind 26, wherever the two stand; each is found at its first row.
#[test]
fn a_second_device() {
    let mut rows = rows_of(&table(&TWO_EQUAL));
    rows.extend([Row { device: 2, ..rows[0] }, Row { device: 2, ..rows[1] }, Row { device: 3, ..rows[0] }]);
    for room in [0, 100] {
        assert_eq!(answer(&words_of(&rows), room), Answer::refused(14, 3));
        for wrong in 0..6 {
            let mut rows = rows.clone();
            rows[wrong].deep += 1;
            assert_eq!(answer(&words_of(&rows), room), Answer::refused(26, wrong));
        }
    }
}

/// 8 counts the rows that are given, not those left.
#[test]
fn too_many_rows() {
    let roots = |count: u32| -> Vec<u32> { (1..=count).flat_map(|at| [1, at, 0, 0, 1, 1]).collect() };
    assert_eq!(answer(&roots(1_024), 6), Answer::Done(1));
    assert_eq!(answer(&roots(1_025), 6), Answer::refused(8, 0));
}

/// The rule: every interface named 3 under the device has a speed, some value named 4. By rows, the second block has
/// none; by paths it is the first, and so it is when folded.
#[test]
fn the_published_truth() {
    let rule = [5, 1, 0, 1, 5, 2, 1, 3, 6, 3, 2, 4, 7, 2, 1, 1_000];
    let entries = accepted_rule(&rule).expect("an accepted rule");
    let given = [[1, 0, 0, 1, 11], [2, 1, 1, 3, 101], [3, 2, 2, 4, 1_000], [4, 1, 1, 3, 101]];
    let rows = rows_of(&table(&given));
    assert!(!Evaluation::of_rule(&entries, &rows).verdict(0, &mut vec![]));
    assert!(Published::of(&rows).truth(&entries));
    assert_eq!(Published::of(&rows).paths(), 3);
    assert_eq!(verdict(&rule, &words_of(&folded_rows(&rows))), Answer::Done(1));
    // Another speed in the second block makes it false for nobody, another interface without one does.
    for (row, truth) in [([5, 4, 2, 4, 10], true), ([5, 1, 1, 3, 102], false)] {
        let rows = rows_of(&table(&[&given[..], &[row]].concat()));
        assert_eq!(Published::of(&rows).truth(&entries), truth, "{row:?}");
        assert_eq!(verdict(&rule, &words_of(&folded_rows(&rows))), Answer::Done(truth as usize), "{row:?}");
    }
}
