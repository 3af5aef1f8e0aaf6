//! Quantifiers over any name, worked by hand.

use super::marks::marks_of;
use super::part::part_of;
use super::set::set_part_of;
use super::*;
use crate::answer::Answer;

/// Nothing under this interface equals 0: every root named 1, every row named 3 under it, every row under that.
const NOTHING_IS_0: [u32; 20] = [5, 1, 0, 1, 5, 2, 1, 3, 5, 3, 2, ANY_NAME, 1, 4, 0, 0, 7, 2, 1, 0];

/// A device with an interface of two rows, at 3 and 4. The zeros stand under one of these, and beside it.
const DEVICE: [[u32; 6]; 7] = [
    [1, 1, 0, 0, 1, 11],
    [1, 2, 1, 1, 3, 1],
    [1, 3, 2, 2, 4, 5],
    [1, 4, 2, 2, 5, 7],
    [1, 5, 3, 3, 4, 0],
    [1, 6, 1, 1, 2, 0],
    [1, 7, 6, 2, 4, 0],
];

/// Two roots of different names, with rows of several names under them.
const TWO_ROOTS: [[u32; 6]; 7] = [
    [1, 1, 0, 0, 1, 11],
    [1, 2, 1, 1, 2, 1],
    [1, 3, 1, 1, 3, 2],
    [1, 4, 2, 2, 2, 1],
    [1, 5, 0, 0, 2, 12],
    [1, 6, 5, 1, 2, 1],
    [1, 7, 5, 1, 4, 1],
];

/// The same device with other values of the interface's rows.
fn with_values(values: [u32; 2]) -> Vec<u32> {
    let mut rows = DEVICE;
    (rows[2][5], rows[3][5]) = (values[0], values[1]);
    rows.concat()
}

/// The same rule with another name in the place of any.
fn named(rule: &[u32], name: u32) -> Vec<u32> {
    let mut rule = rule.to_vec();
    for words in rule.chunks_mut(ENTRY_WORDS).filter(|words| matches!(words[..], [5 | 6, .., ANY_NAME])) {
        words[3] = name;
    }
    rule
}

/// The at of each row.
fn ats(words: &[u32]) -> Vec<u32> {
    rows_of(words).iter().map(|row| row.at).collect()
}

#[test]
fn nothing_under_this_interface_equals_0() {
    let marked = |values| marks_of(&NOTHING_IS_0, &with_values(values)).expect("accepted");
    assert_eq!(marked([5, 7]), (true, vec![1, 1, 1, 1, 0, 0, 0]));
    assert_eq!(marked([0, 7]), (false, vec![1, 1, 1, 0, 0, 0, 0]));
    assert_eq!(marked([5, 0]), (false, vec![1, 1, 0, 1, 0, 0, 0]));
    // Both, and the first decides.
    assert_eq!(marked([0, 0]), (false, vec![1, 1, 1, 0, 0, 0, 0]));
    for values in [[5, 7], [0, 7], [5, 0], [0, 0]] {
        let holds = |name| verdict(&named(&NOTHING_IS_0, name), &with_values(values)) == Answer::Done(1);
        assert_eq!([0, 4, 5, 6].map(holds), [!values.contains(&0), values[0] != 0, values[1] != 0, true]);
    }
}

/// Some root whose children named 2 all have its value: the second has none. Only its name is another.
#[test]
fn equal_values_under_two_names() {
    let rows = [[2, 2, 0, 0, 2, 2], [2, 5, 0, 0, 1, 2], [2, 8, 2, 1, 2, 1], [2, 9, 8, 2, 3, 2]].concat();
    let rule = [[6, 1, 0, 0], [5, 2, 1, 2], [5, 3, 0, 0], [6, 4, 0, 1], [7, 0, 0, 1]].concat();
    assert_eq!(marks_of(&rule, &rows), Ok((true, vec![0, 1, 0, 0])));
    let mut first_named = rule.clone();
    first_named[3] = 2;
    assert_eq!(verdict(&first_named, &rows), Answer::Done(0));
}

#[test]
fn over_roots_and_under_a_variable() {
    let rows =
        [[1, 1, 0, 0, 1, 1], [1, 2, 0, 0, 9, 2], [1, 3, 2, 1, 1, 3], [4, 1, 0, 0, MOST_NAME, 4]].concat();
    let found = |rule: &dyn Fn(u32) -> Vec<u32>| {
        [1, 2, 3, 4].map(|value| verdict(&rule(value), &rows) == Answer::Done(1))
    };
    let over_roots = |value| vec![6, 1, 0, ANY_NAME, 7, 0, 1, value];
    let under = |value| vec![6, 1, 0, ANY_NAME, 6, 2, 1, ANY_NAME, 7, 1, 1, value];
    let under_1 = |value| vec![6, 1, 0, 1, 6, 2, 1, ANY_NAME, 7, 1, 1, value];
    assert_eq!(found(&over_roots), [true, true, false, true]);
    assert_eq!(found(&under), [false, false, true, false]);
    assert_eq!(found(&under_1), [false; 4]);
    // Over no rows every is true and some is not, whatever the name.
    assert_eq!(verdict(&[5, 1, 0, ANY_NAME, 8, 0, 0, 0], &[]), Answer::Done(1));
    assert_eq!(verdict(&[6, 1, 0, ANY_NAME, 7, 0, 0, 0], &[]), Answer::Done(0));
}

/// Some row under some root has the value 1, with these names.
fn some_under(root: u32, under: u32) -> Vec<u32> {
    vec![6, 1, 0, root, 6, 2, 1, under, 7, 1, 1, 1]
}

#[test]
fn reached_rows_and_parts() {
    let rows = rows_of(&TWO_ROOTS.concat());
    for ([root, under], reached, full) in [
        ([ANY_NAME, ANY_NAME], vec![1, 2, 3, 5, 6, 7], vec![1, 2, 5, 6, 7]),
        ([ANY_NAME, 2], vec![1, 2, 5, 6], vec![1, 2, 5, 6]),
        ([1, ANY_NAME], vec![1, 2, 3], vec![1, 2]),
        ([2, ANY_NAME], vec![5, 6, 7], vec![5, 6, 7]),
        ([3, ANY_NAME], vec![], vec![]),
    ] {
        let rule = some_under(root, under);
        let entries = accepted_rule(&rule).expect("accepted");
        let is_reached = |row: &usize| is_reached(&entries, &rows, *row);
        let found: Vec<u32> = (0..rows.len()).filter(is_reached).map(|row| rows[row].at).collect();
        assert_eq!(found, reached, "{rule:?}");
        let sent = |mode| ats(&part_of(&rule, &TWO_ROOTS.concat(), mode).expect("accepted"));
        assert_eq!([sent(2), sent(3)], [reached, full], "{rule:?}");
    }
    // The row at 4 hangs two rows deep: the third quantifier alone reaches it, with all three bound.
    let rule = [6, 1, 0, ANY_NAME, 6, 2, 1, ANY_NAME, 6, 3, 2, ANY_NAME, 7, 2, 1, 1];
    let around = fewest_around(&accepted_rule(&rule).expect("accepted"), &rows);
    assert_eq!(around, [0, 1, 1, 2, 0, 1, 1].map(Some));
}

/// The rows under the interface are read one by one; nothing is sent where none is 0.
#[test]
fn parts_of_an_interface() {
    for (values, full) in [([5, 7], vec![]), ([0, 7], vec![1, 2, 3]), ([5, 0], vec![1, 2, 4])] {
        let device = with_values(values);
        let sent = |mode| ats(&part_of(&NOTHING_IS_0, &device, mode).expect("accepted"));
        assert_eq!([sent(2), sent(3)], [vec![1, 2, 3, 4], full]);
    }
}

/// A quantifier over roots of any name reads true or false where one of the own roots decides it, whatever that
/// one is called.
#[test]
fn readings_over_any_roots() {
    let device = [[1, 1, 0, 0, 1, 1], [1, 2, 0, 0, 2, 2]].concat();
    let sent = |rule: &[u32]| ats(&part_of(rule, &device, 3).expect("accepted"));
    // Some root has the value 1 and some root the value 3: the first decides its own side, the other is open.
    let both = |name| vec![2, 1, 3, 0, 6, 2, 0, name, 7, 0, 1, 1, 6, 4, 0, name, 7, 0, 1, 3];
    assert_eq!([0, 1, 2].map(|name| sent(&both(name))), [vec![1], vec![1], vec![]]);
    // For every root some root is 2: the second tells it for both, if its name is taken.
    let some_2 = |name| vec![5, 1, 0, ANY_NAME, 6, 2, 0, name, 7, 1, 1, 2];
    assert_eq!([0, 2, 1].map(|name| sent(&some_2(name))), [vec![2], vec![2], vec![1, 2]]);
}

/// The joined parts of two devices, in all modes; with rows reached by name alone the verdict would be lost.
#[test]
fn joined_parts_keep_the_verdict() {
    let mut second = rows_of(&with_values([5, 0]));
    second.iter_mut().for_each(|row| row.device = 2);
    second[0].value = 12;
    let devices = [with_values([5, 7]), words_of(&second)];
    assert_eq!(verdict(&NOTHING_IS_0, &devices.concat()), Answer::Done(0));
    for modes in (1..=3).flat_map(|first| (1..=3).map(move |second| [first, second])) {
        let parts =
            [0, 1].map(|place| part_of(&NOTHING_IS_0, &devices[place], modes[place]).expect("accepted"));
        assert_eq!(verdict(&NOTHING_IS_0, &parts.concat()), Answer::Done(0), "{modes:?}");
    }
    let [entries, by_name] = [0, 9].map(|name| accepted_rule(&named(&NOTHING_IS_0, name)).expect("accepted"));
    let spare = spare_rows_reached_by(&by_name, &entries, &second);
    assert_eq!(spare, [false, false, true, true, true, true, true]);
    assert_eq!(verdict(&NOTHING_IS_0, &words_of(&second[..2])), Answer::Done(1));
}

#[test]
fn sets_and_plans() {
    let rules = [&NOTHING_IS_0[..], &some_under(2, 2), &some_under(ANY_NAME, 3)].concat();
    let counts = [5, 3, 3];
    let (pool, mut verdicts) = (TWO_ROOTS.concat(), [7; 3]);
    assert_eq!(set_verdicts(&rules, &counts, &pool, &mut verdicts), Answer::Done(3));
    assert_eq!(verdicts, [1, 1, 0]);
    let sent = |mode| ats(&set_part_of(&rules, &counts, &pool, mode).expect("accepted"));
    assert_eq!([sent(2), sent(3)], [vec![1, 3, 5, 6], vec![5, 6]]);
    // Under the interface at 3 a row of a name that no rule has turns the first verdict; no row is named 0.
    let steps = [[ADD, 1, 9, 3, 2, 60_000, 0], [SET, 1, 9, 0, 0, 0, 3], [ADD, 1, 10, 3, 2, ANY_NAME, 0]];
    let (mut table, mut verdicts) = ([7; 9 * ROW_WORDS], [7; 9]);
    let answer = try_plan(&rules, &counts, &pool, &steps.concat(), &mut table, &mut verdicts);
    assert_eq!((answer.number, answer.place, answer.rows), (9, 2, 8));
    assert_eq!(verdicts, [0, 1, 0, 1, 1, 0, 7, 7, 7]);
}

#[test]
fn names_of_quantifiers_and_rows() {
    for kind in [5, 6] {
        for name in [ANY_NAME, 1, MOST_NAME] {
            assert_eq!(check_rule(&[kind, 1, 0, name, 7, 0, 1, 0]), Answer::Done(2));
            assert_eq!(check_rule(&[6, 1, 0, 0, kind, 2, 1, name, 7, 1, 1, 0]), Answer::Done(3));
        }
        for name in [MOST_NAME + 1, MOST_NAME + 2, 1 << 31, u32::MAX] {
            assert_eq!(check_rule(&[kind, 1, 0, name, 7, 0, 1, 0]), Answer::refused(3, 0));
            assert_eq!(check_rule(&[6, 1, 0, 0, kind, 2, 1, name, 7, 1, 1, 0]), Answer::refused(3, 1));
        }
    }
    for (name, answer) in
        [(ANY_NAME, Answer::refused(9, 1)), (1, Answer::Done(2)), (65_536, Answer::refused(9, 1))]
    {
        assert_eq!(check_table(&[1, 1, 0, 0, 1, 1, 1, 2, 1, 1, name, 1]), answer);
    }
    // What is due 0 elsewhere still is.
    for words in [[1, 1, 0, 1], [1, 1, 1, 0], [2, 1, 2, 1], [3, 1, 2, 1], [4, 1, 2, 65_536]] {
        assert_eq!(check_rule(&words), Answer::refused(3, 0), "{words:?}");
    }
}

/// The faults of the checks behind 3, at a quantifier over any name; and those before them come first.
#[test]
fn other_faults_of_a_quantifier_over_any_name() {
    for kind in [5, 6] {
        let refused = |entries: &[[u32; 4]]| check_rule(&entries.concat());
        assert_eq!(refused(&[[kind, 1, 0, 0]]), Answer::refused(4, 0));
        assert_eq!(refused(&[[kind, 0, 0, 0], [7, 0, 1, 0]]), Answer::refused(4, 0));
        assert_eq!(refused(&[[kind, 2, 0, 0], [kind, 2, 0, 0], [7, 0, 1, 0]]), Answer::refused(5, 1));
        assert_eq!(refused(&[[kind, 1, 1, 0], [7, 0, 1, 0]]), Answer::refused(7, 0));
        assert_eq!(refused(&[[5, 1, 0, 0], [kind, 2, 2, 0], [7, 0, 1, 0]]), Answer::refused(7, 1));
        let nested: Vec<[u32; 4]> = (1..=7).map(|body| [kind, body, 0, 0]).chain([[7, 0, 1, 0]]).collect();
        assert_eq!(refused(&nested), Answer::refused(6, 6));
        assert_eq!(refused(&[[kind, 0, 9, 65_536], [7, 0, 1, 0]]), Answer::refused(3, 0));
        assert_eq!(refused(&[[kind, 0, 9, 0], [10, 0, 1, 0]]), Answer::refused(2, 1));
        assert_eq!(refused(&[[kind, 0, 9, 0], [1, 2, 0, 1]]), Answer::refused(3, 1));
    }
}

#[test]
fn files_with_any_name() {
    let file = b"kind a b c\n5 1 0 1\n5 2 1 3\n5 3 2 0\n1 4 0 0\n7 2 1 0\n";
    let mut words = [7; 20];
    assert_eq!(read_rule(file, &mut words), Answer::Done(20));
    assert_eq!(words, NOTHING_IS_0);
    let mut written = vec![7; file.len()];
    assert_eq!(write_rule(&words, &mut written), Answer::Done(file.len()));
    assert_eq!(written, file);
    let pool = |values| POOL.text_of(&with_values(values));
    assert_eq!([[5, 7], [5, 0]].map(|values| check_files(file, &pool(values))), [1, 0]);
    assert_eq!(report_text(file, &pool([5, 7])), "verdict rows branch full marks\n1 7 4 0 4\n");
    assert_eq!(report_text(file, &pool([5, 0])), "verdict rows branch full marks\n0 7 4 3 3\n");
    for line in ["5 1 0 00", "5 1 0 -0", "5 1 0 "] {
        assert_eq!(read_rule(format!("kind a b c\n{line}\n").as_bytes(), &mut words), Answer::refused(19, 2));
    }
    let no_name = b"device at up deep name value\n1 1 0 0 0 1\n";
    assert_eq!(check_files(file, no_name), 109);
    assert_eq!(report_text(file, no_name), "refused place\n9 0\n");
}
