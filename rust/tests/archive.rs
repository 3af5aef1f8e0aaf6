//! The archive's order: both calls, and that each undoes the other.
#![cfg(feature = "archive")]

use gabzeril_tests::answer::Answer;
use gabzeril_tests::checker::{self, check_table, LEAST_VALUE, MOST_ROWS, ROW_WORDS};
use gabzeril_tests::compare::archive::*;
use gabzeril_tests::compare::calls::Reorder;
use gabzeril_tests::compare::fillings::alone;
use gabzeril_tests::compare::refused_step::before;
use gabzeril_tests::compare::{calls, run, Case};
use gabzeril_tests::ffi;
use gabzeril_tests::generate::*;

/// One of the two calls.
struct Call {
    name: &'static str,
    compare: fn(&mut Case, &[u32], &[u32]),
    library: Reorder,
    checker: Reorder,
    other: fn(OtherOrder, &[u32], &mut [u32]) -> Answer,
}

const TO_COLUMNS: Call = Call {
    name: "to_columns",
    compare: calls::to_columns,
    library: ffi::to_columns,
    checker: checker::to_columns,
    other: OtherOrder::to_columns,
};
const FROM_COLUMNS: Call = Call {
    name: "from_columns",
    compare: calls::from_columns,
    library: ffi::from_columns,
    checker: checker::from_columns,
    other: OtherOrder::from_columns,
};

impl Call {
    /// What the library writes into a buffer of just as many words.
    fn of(&self, words: &[u32]) -> Vec<u32> {
        let mut output = vec![7; words.len()];
        assert_eq!((self.library)(words, &mut output), Answer::Done(words.len()), "{} {words:?}", self.name);
        output
    }
}

const ACCEPTED: &str = "a table that is accepted";
const REFUSED: &str = "whole rows that are no accepted table";

/// How often at least each is noted of the requests of one call.
const NOTED: [(&str, u64); 19] = [
    (ACCEPTED, 3_000),
    (REFUSED, 10_000),
    (NO_ROWS, 1_500),
    (NO_WORDS, 500),
    (ONE_ROW, 1_000),
    (OVER_LIMIT, 300),
    (FAR_OVER_LIMIT, 10),
    (JUST_FITS, 4_000),
    (ROOM_BEHIND, 15_000),
    (ODD_ROOM, 15_000),
    (MUCH_ROOM, 2_500),
    (EQUAL, 2_000),
    (RISING, 2_000),
    (FALLING, 1_000),
    (NO_ROOM, 3_000),
    (A_WORD_SHORT, 3_000),
    (LESS_THAN_A_ROW, 1_000),
    (OVER_LIMIT_WITH_REST, 150),
    (ROOM_WITHOUT_REST, 300),
];

#[test]
fn to_columns() {
    requests(&TO_COLUMNS);
}

#[test]
fn from_columns() {
    requests(&FROM_COLUMNS);
}

/// Number, place, value and every word of both buffers, and of what lies around them.
fn requests(call: &Call) {
    let tally = run(call.name, 30_000, 60_000, |case| {
        let words = any_run(&mut case.random);
        let accepted = check_table(&words).number() == 0;
        case.note_met([(accepted, ACCEPTED), (!accepted && words.len().is_multiple_of(ROW_WORDS), REFUSED)]);
        for _ in 0..2 {
            in_some_room(case, call, &words);
        }
    });
    tally.saw_each([0], 25_000);
    tally.saw_each([17, 28], 10_000);
    for (what, least) in NOTED {
        tally.saw_noted(what, least);
    }
    [17, 28].iter().for_each(|&number| tally.saw_noted(&alone(number), 5_000));
    tally.saw_noted(&before(28, 17), 5_000);
    (1..ROW_WORDS).for_each(|words| tally.saw_noted(&rest(words), 3_000));
    DIFFERENCES.iter().for_each(|&word| tally.saw_noted(&difference(word), 2_000));
}

fn in_some_room(case: &mut Case, call: &Call, words: &[u32]) {
    // Now and then for the whole rows alone.
    let whole = words.len() / ROW_WORDS * ROW_WORDS;
    let around = if case.random.chance(10) { whole } else { words.len() };
    let room = one_length_around(&mut case.random, around);
    let output = case.random.words(room);
    (call.compare)(case, words, &output);
    let mut after = output;
    let answer = (call.checker)(words, &mut after);
    if note_lengths(case, words.len(), room, answer) {
        // Of the columns and the table, the table.
        note_rows(case, if call.name == TO_COLUMNS.name { words } else { &after[..words.len()] });
    }
}

/// The call gives other words than it was given.
fn changes(call: &Call) -> String {
    format!("{} changes the words", call.name)
}

/// Whatever the words are, each call undoes the other.
#[test]
fn round_trips() {
    let tally = run("round_trips", 10_000, 20_000, |case| {
        let words = whole_rows(&mut case.random);
        for (there, back) in [(&TO_COLUMNS, &FROM_COLUMNS), (&FROM_COLUMNS, &TO_COLUMNS)] {
            let reordered = there.of(&words);
            let found = back.of(&reordered);
            case.compared(found == words, Answer::Done(words.len()), || {
                format!("{} and back: {words:?} {reordered:?} {found:?}", there.name)
            });
            case.note_met([(reordered != words, &changes(there))]);
        }
        let accepted = check_table(&words).number() == 0;
        let long = words.len() > MOST_ROWS * ROW_WORDS;
        case.note_met([(accepted, ACCEPTED), (!accepted, REFUSED), (long, OVER_LIMIT)]);
    });
    for (what, least) in [(ACCEPTED, 2_000), (REFUSED, 4_000), (OVER_LIMIT, 150)] {
        tally.saw_noted(what, least);
    }
    [TO_COLUMNS, FROM_COLUMNS].iter().for_each(|call| tally.saw_noted(&changes(call), 5_000));
}

/// What comes back from the archive has the answer that went there: accepted with as many rows, or refused so.
#[cfg(feature = "lower")]
#[test]
fn archived_tables() {
    let tally = run("archived_tables", 10_000, 10_000, |case| {
        let mut table = accepted_rows(&mut case.random);
        if case.random.chance(25) {
            table = damaged_table(&mut case.random, &table);
            table.truncate(table.len() / ROW_WORDS * ROW_WORDS);
        }
        let brought_back = FROM_COLUMNS.of(&TO_COLUMNS.of(&table));
        let (before, after) = (ffi::check_table(&table), ffi::check_table(&brought_back));
        case.compared(before == after && brought_back == table, check_table(&table), || {
            format!("{table:?} {before:?}: back {brought_back:?} {after:?}")
        });
    });
    tally.saw_each([0], 6_000);
    tally.saw_each(TABLE_FAULTS, 50);
}

/// There is no limit to the rows, and no length is taken modulo 2^16: neither that in rows nor that in words.
#[test]
fn long_runs() {
    const ROWS: [usize; 8] = [MOST_ROWS + 1, 4_096, 10_922, 10_923, 32_768, 65_535, 65_536, 100_001];
    run("long_runs", 2, 12 * ROWS.len() as u64, |case| {
        for rows in ROWS {
            let words = rows_of_every_kind(&mut case.random, rows);
            for (there, back) in [(&TO_COLUMNS, &FROM_COLUMNS), (&FROM_COLUMNS, &TO_COLUMNS)] {
                for (words, room) in [
                    (&words[..], words.len() + case.random.below(2)),
                    (&words, words.len() - 1),
                    (&words[1..], words.len()),
                ] {
                    (there.compare)(case, words, &vec![7; room]);
                }
                assert!(back.of(&there.of(&words)) == words, "{} and back, {rows} rows", there.name);
            }
        }
    });
}

/// What is noted where another order would answer or write otherwise.
fn told_apart(other: OtherOrder, call: &Call) -> String {
    format!("{} told apart from {other:?}", call.name)
}

/// Requests as above tell each call of the library from every order that is not the archive's.
#[test]
fn other_orders() {
    let calls = [TO_COLUMNS, FROM_COLUMNS];
    let tally = run("other_orders", 8_000, 16_000, |case| {
        let words = any_run(&mut case.random);
        let room = one_length_around(&mut case.random, words.len());
        let output = case.random.words(room);
        for call in &calls {
            (call.compare)(case, &words, &output);
            let mut found = output.clone();
            let answer = (call.library)(&words, &mut found);
            for &other in OtherOrder::ALL {
                let mut others = output.clone();
                let same = (call.other)(other, &words, &mut others) == answer && others == found;
                case.note_met([(!same, &told_apart(other, call))]);
            }
        }
    });
    for call in &calls {
        OtherOrder::ALL.iter().for_each(|&other| tally.saw_noted(&told_apart(other, call), 100));
    }
}

/// Every number of words and every room, from none to a few rows; an empty run as NULL and as a pointer.
#[test]
fn every_length() {
    for (words, room) in (0..=40).flat_map(|words| (0..=45).map(move |room| (words, room))) {
        let expected = match words % 6 {
            0 if words <= room => Answer::Done(words),
            0 => Answer::refused(17, 0),
            _ => Answer::refused(28, 0),
        };
        let written = if expected.number() == 0 { words } else { 0 };
        for (call, null) in
            [&TO_COLUMNS, &FROM_COLUMNS].into_iter().flat_map(|call| [(call, false), (call, true)])
        {
            ffi::null_for_empty(null);
            let mut output = vec![7; room];
            assert_eq!((call.library)(&vec![0; words], &mut output), expected, "{words} in {room}");
            let (answer, past) = output.split_at(written);
            assert!(answer.iter().all(|&word| word == 0) && past.iter().all(|&word| word == 7), "{output:?}");
        }
    }
    ffi::null_for_empty(false);
}

/// One word at each place, and 0 elsewhere: it stands in its column, and less itself below if there is a row below.
#[test]
fn every_place() {
    for rows in 1..=9 {
        for (row, column) in (0..rows).flat_map(|row| (0..6).map(move |column| (row, column))) {
            for word in [1, 1_000, LEAST_VALUE, u32::MAX] {
                let (mut table, mut columns) = (vec![0; 6 * rows], vec![0; 6 * rows]);
                table[6 * row + column] = word;
                columns[rows * column + row] = word;
                if row + 1 < rows {
                    columns[rows * column + row + 1] = word.wrapping_neg();
                }
                assert_eq!(TO_COLUMNS.of(&table), columns, "{table:?}");
                assert_eq!(FROM_COLUMNS.of(&columns), table, "{columns:?}");
            }
        }
    }
}

/// Each word around the powers of two under each other: the difference is that of the numbers, modulo 2^32.
#[test]
fn every_difference() {
    let around = (0..32).map(|bits| 1 << bits).flat_map(|power: u32| [power - 1, power, power + 1]);
    let words: Vec<u32> = around.chain([u32::MAX - 1, u32::MAX]).collect();
    for (above, word) in words.iter().flat_map(|&above| words.iter().map(move |&word| (above, word))) {
        let difference = (i64::from(word) - i64::from(above)).rem_euclid(1 << 32) as u32;
        let table =
            [[above, word, above, word, above, word], [word, above, word, above, word, above]].concat();
        let back = difference.wrapping_neg();
        let columns = [above, difference, word, back].repeat(3);
        assert_eq!(TO_COLUMNS.of(&table), columns, "{above} {word}");
        assert_eq!(FROM_COLUMNS.of(&columns), table, "{above} {word}");
    }
}

/// A device with three rows, worked by hand, in buffers that are longer.
#[test]
fn one_device() {
    let table = [1, 1, 0, 0, 1, 11, 1, 2, 1, 1, 2, 2, 1, 3, 1, 1, 3, 101];
    let columns = [1, 0, 0, 1, 1, 1, 0, 1, 0, 0, 1, 0, 1, 1, 1, 11, 4_294_967_287, 99];
    for (call, words, expected) in [(TO_COLUMNS, table, columns), (FROM_COLUMNS, columns, table)] {
        let mut output = [7; 20];
        assert_eq!((call.library)(&words, &mut output), Answer::Done(18));
        assert_eq!(output, *[&expected[..], &[7, 7]].concat());
    }
}
