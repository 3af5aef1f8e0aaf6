//! Values below zero, worked by hand.

use super::part::part_of;
use super::*;
use crate::answer::Answer;

/// The word of -1.
const MINUS_1: u32 = 4_294_967_295;

/// Words by the values that they stand for, rising.
const RISING: [u32; 8] =
    [2_147_483_648, 2_147_483_649, 4_294_967_294, MINUS_1, 0, 1, 2_147_483_646, 2_147_483_647];

fn root(at: u32, name: u32, value: u32) -> [u32; 6] {
    [1, at, 0, 0, name, value]
}

/// Whether each comparison holds between the first value and the second: equal, less, at most. It is asked of a
/// constant and of a variable, in the verdict and in what a switch sends.
fn compared(left: u32, right: u32) -> [bool; 3] {
    [7, 8, 9].map(|kind| {
        let with_constant = [6, 1, 0, 1, kind, 0, 1, right];
        let with_variable = [6, 1, 0, 1, 6, 2, 0, 2, kind, 0, 0, 1];
        let (one, two) = (root(1, 1, left), [root(1, 1, left), root(2, 2, right)].concat());
        let verdict_of = |rule: &[u32], pool: &[u32]| verdict(rule, pool) == Answer::Done(1);
        let holds = verdict_of(&with_constant, &one);
        assert_eq!(verdict_of(&with_variable, &two), holds, "{kind} {left} {right}");
        let sent = if holds { one.to_vec() } else { vec![] };
        assert_eq!(part_of(&with_constant, &one, 3), Ok(sent), "{kind} {left} {right}");
        holds
    })
}

#[test]
fn minus_1_is_less_than_0() {
    assert_eq!(compared(MINUS_1, 0), [false, true, true]);
    assert_eq!(compared(0, MINUS_1), [false, false, false]);
    assert_eq!(compared(MINUS_1, MINUS_1), [true, false, true]);
}

#[test]
fn words_are_in_the_order_of_their_values() {
    for (place, &left) in RISING.iter().enumerate() {
        for (other, &right) in RISING.iter().enumerate() {
            assert_eq!(compared(left, right), [place == other, place < other, place <= other]);
        }
    }
    assert_eq!(RISING.map(value_of)[..4], [-2_147_483_648, -2_147_483_647, -2, -1]);
    assert_eq!(RISING.map(value_of)[4..], [0, 1, 2_147_483_646, 2_147_483_647]);
    assert_eq!(RISING.map(|word| word_of(value_of(word))), RISING.map(Some));
    assert_eq!([-2_147_483_649, 2_147_483_648].map(word_of), [None, None]);
}

/// The first row below zero decides; by the order of the words none would.
#[test]
fn marks_are_those_of_the_verdict() {
    let pool = [root(1, 1, 0), root(2, 1, 5), root(3, 1, MINUS_1), root(4, 1, LEAST_VALUE)].concat();
    let mut bytes = [7; 4];
    assert_eq!(marks(&[6, 1, 0, 1, 8, 0, 1, 0], &pool, &mut bytes), Answer::Done(1));
    assert_eq!(bytes, [0, 0, 1, 0]);
    assert_eq!(marks(&[5, 1, 0, 1, 9, 0, 1, 5], &pool, &mut bytes), Answer::Done(1));
    assert_eq!(bytes, [1, 1, 1, 1]);
}

/// Check 3 looks at b, and no longer at the constant; equal siblings are those with equal words.
#[test]
fn words_of_any_size() {
    for word in RISING {
        assert_eq!(check_rule(&[5, 1, 0, 1, 7, 0, 1, word]), Answer::Done(2));
        assert_eq!(check_rule(&[5, 1, 0, 1, 7, 0, 2, word]), Answer::refused(3, 1));
        assert_eq!(check_table(&root(1, 1, word)), Answer::Done(1));
        assert_eq!(check_table(&[root(1, 1, word), root(2, 1, word)].concat()), Answer::refused(12, 1));
    }
    // A variable is no constant, and -5 no variable.
    assert_eq!(check_rule(&[5, 1, 0, 1, 7, 0, 0, 4_294_967_291]), Answer::refused(7, 1));
}

/// The word of the last number of a line behind the first one, or none if the line is 19.
fn last_word(format: Format, line: &str) -> Option<u32> {
    let file = format!("{}{line}\n", format.first_line);
    match format.words_of(file.as_bytes()) {
        Ok(words) => {
            assert_eq!(format.text_of(&words), file.as_bytes(), "the file comes back");
            words.last().copied()
        }
        Err(refusal) => {
            assert_eq!((refusal.number, refusal.place), (19, 2), "{line}");
            None
        }
    }
}

/// What may stand for a value, with its word.
const VALUES: [(&str, Option<u32>); 22] = [
    ("0", Some(0)),
    ("1", Some(1)),
    ("-1", Some(4_294_967_295)),
    ("-10", Some(4_294_967_286)),
    ("2147483647", Some(2_147_483_647)),
    ("-2147483647", Some(2_147_483_649)),
    ("-2147483648", Some(2_147_483_648)),
    ("2147483648", None),
    ("-2147483649", None),
    ("4294967295", None),
    ("-4294967295", None),
    ("-18446744073709551615", None),
    ("-", None),
    ("-0", None),
    ("-00", None),
    ("-01", None),
    ("--1", None),
    ("- 1", None),
    ("+1", None),
    ("1-", None),
    ("−1", None),
    ("", None),
];

#[test]
fn values_and_constants_in_files() {
    for (text, word) in VALUES {
        assert_eq!(last_word(POOL, &format!("1 1 0 0 1 {text}")), word, "{text}");
        for kind in 7..=9 {
            assert_eq!(last_word(RULE, &format!("{kind} 0 1 {text}")), word, "{text}");
        }
    }
}

/// All other numbers, with the same kind and another b, or with the same b and another kind.
#[test]
fn no_other_number_has_a_sign() {
    for line in ["5 1 1", "6 1 1", "4 1 1", "10 0 1", "0 0 1", "7 0 0", "8 0 2", "9 0 4294967295"] {
        for text in ["-5", "-1", "-2147483648", "-0", "-"] {
            assert_eq!(last_word(RULE, &format!("{line} {text}")), None, "{line} {text}");
        }
        for (text, word) in [("5", 5), ("2147483648", 2_147_483_648), ("4294967295", MINUS_1)] {
            assert_eq!(last_word(RULE, &format!("{line} {text}")), Some(word), "{line} {text}");
        }
    }
    for line in ["-7 0 1 5", "7 -1 1 5", "7 0 -1 5", "7 0 -1 -5"] {
        assert_eq!(last_word(RULE, line), None, "{line}");
    }
    for line in ["-1 1 0 0 1 5", "1 -1 0 0 1 5", "1 1 -1 0 1 5", "1 1 0 -1 1 5", "1 1 0 0 -1 5"] {
        assert_eq!(last_word(POOL, line), None, "{line}");
    }
}

/// Neither the line before nor the one behind decides what a number may be.
#[test]
fn each_line_has_its_own_kind() {
    let read = |file: &str| read_rule(file.as_bytes(), &mut [0; 8]);
    assert_eq!(read("kind a b c\n7 0 1 -5\n7 0 0 -5\n"), Answer::refused(19, 3));
    assert_eq!(read("kind a b c\n7 0 0 -5\n7 0 1 -5\n"), Answer::refused(19, 2));
    assert_eq!(read("kind a b c\n7 0 1 -5\n7 0 0 4294967295\n"), Answer::Done(8));
    assert_eq!(read("kind a b c\n7 0 0 4294967295\n7 0 1 -5\n"), Answer::Done(8));
    assert_eq!(read("kind a b c\n7 0 0 5\n7 0 1 4294967295\n"), Answer::refused(19, 3));
    assert_eq!(read("kind a b c\n7 0 1 -5\n7 0 1 -"), Answer::refused(19, 3));
}

/// Case (i) in files: from 2,147,483,648 on a value is no longer a number of that column.
#[test]
fn files_of_the_largest_and_the_least_value() {
    let rule = b"kind a b c\n6 1 0 1\n8 0 1 -2147483647\n";
    let pool = |value: &str| format!("device at up deep name value\n1 1 0 0 1 {value}\n").into_bytes();
    for (value, found, text) in [
        ("2147483647", 0, "verdict rows branch full marks\n0 1 1 0 1\n"),
        ("-2147483648", 1, "verdict rows branch full marks\n1 1 1 1 1\n"),
        ("2147483648", 119, "refused place\n19 2\n"),
        ("4294967295", 119, "refused place\n19 2\n"),
    ] {
        assert_eq!(check_files(rule, &pool(value)), found, "{value}");
        assert_eq!(report_text(rule, &pool(value)), text, "{value}");
    }
    let mut file = [7; 60];
    let written = pool("-2147483648");
    assert_eq!(write_pool(&root(1, 1, LEAST_VALUE), &mut file), Answer::Done(written.len()));
    assert_eq!(file[..written.len()], written);
    assert_eq!(write_pool(&root(1, 1, LEAST_VALUE), &mut file[..written.len() - 1]), Answer::refused(17, 0));
}
