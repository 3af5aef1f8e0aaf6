//! The largest accepted inputs, for calls on a small stack.

use crate::checker::{
    rows_of, words_of, Row, ADD, ANY_NAME, ENTRY_WORDS, LEAST_VALUE, MOST_ENTRIES, MOST_NAME, MOST_NESTED,
    MOST_PARAMETERS, MOST_ROWS, MOST_RULES, REMOVE, ROW_WORDS, SET, STEP_WORDS,
};
use crate::generate::{comparisons, Filling, Set};
use crate::random::Random;

const COMMON: u32 = 1;
/// The name of the rows at the end of a table.
const LAST: u32 = 2;
const LAST_VALUE: u32 = MOST_ROWS as u32 - 1;

/// Rules that go as deep as rules can.
pub fn rules() -> Vec<Vec<u32>> {
    let mut rules = vec![
        quantifiers(LAST),
        quantifiers_under_one_another(LAST),
        nots(1, COMMON),
        nots(MOST_NESTED as u32, LAST),
    ];
    for kind in [2, 3, 4] {
        rules.extend([deep_right(kind), deep_left(kind)]);
    }
    rules.extend([over_connectives(5, 2, 9), over_connectives(6, 3, 8), nots_first(5), nots_first(6)]);
    rules.extend(over_any_name());
    rules
}

/// As many quantifiers over any name as may be. Each may range over all rows of a table, so they cannot all walk
/// all rows around one another: only the last row goes on to the next quantifier, or the first row decides.
fn over_any_name() -> Vec<Vec<u32>> {
    let innermost = MOST_NESTED as u32 - 1;
    vec![
        quantifiers(ANY_NAME),
        quantifiers_under_one_another(ANY_NAME),
        // Whatever value a step gives to the first row.
        nots_between(5, [0; MOST_NESTED], [8, innermost, 0, innermost]),
        nots_between(6, [0; MOST_NESTED], [7, innermost, 0, innermost]),
        nots_between(6, [0, 1, 2, 3, 4, 5], [9, 0, 0, innermost]),
    ]
}

/// Sets of as many rules as may be: of the rules above, from the first and from the last on; and of those of as
/// many entries as may be alone.
pub fn sets() -> Vec<Set> {
    let (rules, mut reversed) = (rules(), rules());
    reversed.reverse();
    let mut longest = rules.clone();
    longest.retain(|rule| rule.len() == MOST_ENTRIES * ENTRY_WORDS);
    let of = |rules: Vec<Vec<u32>>| Set::of(&rules.into_iter().cycle().take(MOST_RULES).collect::<Vec<_>>());
    [rules, reversed, longest].map(of).to_vec()
}

/// The rules above, and that of the longest file, with all comparisons as blanks, and as many parameters as there may be
/// for so many blanks.
pub fn fillings() -> Vec<Filling> {
    let with_blanks = |rule: Vec<u32>| {
        let blanks = comparisons(&rule);
        let count = blanks.len().min(MOST_PARAMETERS);
        let mut template = rule;
        for (place, number) in blanks.into_iter().zip((0..count as u32).cycle()) {
            template[place * ENTRY_WORDS + 2..][..2].copy_from_slice(&[2, number]);
        }
        Filling { template, parameters: (0..count as u32).map(|number| LEAST_VALUE + number).collect() }
    };
    rules().into_iter().chain([longest_rule()]).map(with_blanks).collect()
}

/// One chain of 128 entries: nots, then as many quantifiers as may be, then a comparison.
fn nots_first(quantifier: u32) -> Vec<u32> {
    let (entries, nested) = (MOST_ENTRIES as u32, MOST_NESTED as u32);
    let mut rule = vec![];
    for place in 0..entries - 1 {
        let words = if place + 1 + nested < entries {
            [1, place + 1, 0, 0]
        } else {
            [quantifier, place + 1, 0, LAST]
        };
        rule.extend(words);
    }
    rule.extend([7, nested - 1, 1, LAST_VALUE]);
    rule
}

/// As many quantifiers as may be, around one chain of connectives to the left, of comparisons with the
/// innermost variable that do not decide: every row and both sides are in the reason.
fn over_connectives(quantifier: u32, connective: u32, comparison: u32) -> Vec<u32> {
    let innermost = MOST_NESTED as u32 - 1;
    let mut rule: Vec<u32> =
        (0..MOST_NESTED as u32).flat_map(|place| [quantifier, place + 1, 0, LAST]).collect();
    while rule.len() / 4 + 2 < MOST_ENTRIES {
        let place = rule.len() as u32 / 4;
        rule.extend([connective, place + 2, place + 1, 0]);
        rule.extend([comparison, innermost, 0, innermost]);
    }
    rule.extend([comparison, innermost, 0, innermost]);
    rule
}

/// As many as may stand around one another: some x that is the last row, and some y that is, and so on.
fn quantifiers(name: u32) -> Vec<u32> {
    let mut rule = vec![];
    for variable in 0..MOST_NESTED as u32 - 1 {
        let place = 3 * variable;
        rule.extend([6, place + 1, 0, name]);
        rule.extend([2, place + 2, place + 3, 0]);
        rule.extend([7, variable, 1, LAST_VALUE]);
    }
    let last = MOST_NESTED as u32 - 1;
    rule.extend([6, 3 * last + 1, 0, name, 7, last, 1, LAST_VALUE]);
    rule
}

/// Each ranges over the children of the row before.
fn quantifiers_under_one_another(name: u32) -> Vec<u32> {
    let mut rule = vec![];
    for variable in 0..MOST_NESTED as u32 {
        rule.extend([6, variable + 1, variable, name]);
    }
    rule.extend([9, 0, 0, MOST_NESTED as u32 - 1]);
    rule
}

/// One chain of 128 entries: quantifiers spread among nots, then a comparison.
fn nots(quantifiers: u32, name: u32) -> Vec<u32> {
    let entries = MOST_ENTRIES as u32;
    // Rounded up: there are no more quantifiers than asked for.
    let step = entries.div_ceil(quantifiers);
    let mut rule = vec![];
    for place in 0..entries - 1 {
        let words = if place % step == 0 { [6, place + 1, 0, name] } else { [1, place + 1, 0, 0] };
        rule.extend(words);
    }
    rule.extend([7, quantifiers - 1, 1, LAST_VALUE]);
    rule
}

/// One chain of 128 entries: a not, then quantifiers over any name, each with its b and an even number of nots
/// behind it, then a comparison.
fn nots_between(quantifier: u32, under: [u32; MOST_NESTED], comparison: [u32; 4]) -> Vec<u32> {
    let step = (MOST_ENTRIES - 2) / MOST_NESTED;
    let mut rule = vec![1, 1, 0, 0];
    for b in under {
        let place = (rule.len() / ENTRY_WORDS) as u32;
        rule.extend([quantifier, place + 1, b, ANY_NAME]);
        rule.extend((1..step as u32).flat_map(|not| [1, place + not + 1, 0, 0]));
    }
    rule.extend(comparison);
    rule
}

/// A quantifier and one chain of connectives: a comparison to the left, the rest to the right. No left
/// side decides.
fn deep_right(kind: u32) -> Vec<u32> {
    let mut rule = vec![6, 1, 0, COMMON];
    let least = if kind == 3 { [8, 0, 0, 0] } else { [7, 0, 0, 0] };
    while rule.len() / 4 + 2 < MOST_ENTRIES {
        let place = rule.len() as u32 / 4;
        rule.extend([kind, place + 1, place + 2, 0]);
        rule.extend(least);
    }
    rule.extend([7, 0, 1, LAST_VALUE]);
    rule
}

/// The same with the rest to the left.
fn deep_left(kind: u32) -> Vec<u32> {
    let mut rule = vec![6, 1, 0, COMMON];
    while rule.len() / 4 + 2 < MOST_ENTRIES {
        let place = rule.len() as u32 / 4;
        rule.extend([kind, place + 2, place + 1, 0]);
        rule.extend([9, 0, 1, LAST_VALUE]);
    }
    rule.extend([7, 0, 1, LAST_VALUE]);
    rule
}

/// Tables of one device with 1,024 rows.
pub fn tables() -> Vec<Vec<u32>> {
    let most = MOST_ROWS as u32;
    let chain = most - MOST_NESTED as u32;
    vec![
        table(|row| if row + 1 < most { [0, COMMON] } else { [0, LAST] }),
        // A chain at the end, with a row for each quantifier.
        table(|row| match row {
            row if row < chain => [0, COMMON],
            row if row == chain => [0, LAST],
            row => [row, LAST],
        }),
        // Each row under the one before.
        table(|row| [row, COMMON]),
        // All under the first.
        table(|row| if row == 0 { [0, COMMON] } else { [1, LAST] }),
        // Roots of as many names as rows.
        table(|row| [0, row + 1]),
    ]
}

/// A table whose last two rows have the same name: each quantifier decides at the second.
pub fn table_of_two() -> Vec<u32> {
    table(|row| if row + 2 < MOST_ROWS as u32 { [0, COMMON] } else { [0, LAST] })
}

/// A table whose first and last row have the same name: a walk by halves goes as deep as it can.
pub fn table_of_ends() -> Vec<u32> {
    table(|row| if row % (MOST_ROWS as u32 - 1) == 0 { [0, LAST] } else { [0, COMMON] })
}

/// A run of many more rows than a table may have, of any words, for the calls that check no table.
pub fn long_run() -> Vec<u32> {
    const ROWS: usize = 100_000;
    Random::new(7).words(ROWS * ROW_WORDS)
}

/// Up and name of each row are given; its value is its place.
fn table(up_and_name: impl Fn(u32) -> [u32; 2]) -> Vec<u32> {
    table_with_values(|place| {
        let [up, name] = up_and_name(place);
        [up, name, place]
    })
}

/// Up, name and value of each row are given.
fn table_with_values(up_name_value: impl Fn(u32) -> [u32; 3]) -> Vec<u32> {
    let mut rows: Vec<Row> = vec![];
    for place in 0..MOST_ROWS as u32 {
        let [up, name, value] = up_name_value(place);
        // The at of a row is one more than its place.
        let deep = up.checked_sub(1).map_or(0, |parent| rows[parent as usize].deep + 1);
        rows.push(Row { device: 1, at: place + 1, up, deep, name, value });
    }
    words_of(&rows)
}

/// Tables of one device with 1,024 rows to fold, and how many are left. Of most, all rows have one name and value.
pub fn tables_to_fold() -> Vec<(Vec<u32>, usize)> {
    let most = MOST_ROWS as u32;
    let same = |up: fn(u32) -> u32| table_with_values(|place| [up(place), COMMON, 7]);
    vec![
        // Each under the row before: nothing to fold, though all but the parent is equal.
        (same(|place| place), MOST_ROWS),
        // Roots, and rows under the first.
        (same(|_| 0), 1),
        (same(|place| place.min(1)), 2),
        // Two long paths, row by row and one behind the other: each row that goes makes its child equal to another.
        (same(|place| place.saturating_sub(1)), MOST_ROWS / 2),
        (same(|place| if place == MOST_ROWS as u32 / 2 { 0 } else { place }), MOST_ROWS / 2),
        // 32 paths of 32 rows, one behind the other.
        (same(|place| if place.is_multiple_of(32) { 0 } else { place }), 32),
        // A tree of two branches at each row.
        (same(|place| place.div_ceil(2)), MOST_ROWS.ilog2() as usize + 1),
        // Two equal roots, and rows under both that all stay.
        (
            table_with_values(|place| if place < 2 { [0, COMMON, 7] } else { [1 + place % 2, LAST, place] }),
            MOST_ROWS - 1,
        ),
        // A block entered twice at the end of a long path: the last row goes.
        (table_with_values(|place| [place.min(most - 2), COMMON, 7]), MOST_ROWS - 1),
        // Roots, of which only the first and the last are equal.
        (table_with_values(|place| [0, COMMON, place % (most - 1)]), MOST_ROWS - 1),
    ]
}

/// So many steps on one of these tables, all of which can be done: the first leaf, one in the middle and the
/// last are removed, put back and set, and so is the value of the first row.
pub fn steps(table: &[u32], count: usize) -> Vec<u32> {
    let rows = rows_of(table);
    let leaves: Vec<&Row> =
        rows.iter().filter(|row| !rows.iter().any(|other| row.is_parent_of(other))).collect();
    let mut steps: Vec<[u32; STEP_WORDS]> = vec![];
    for value in MOST_ROWS as u32.. {
        for leaf in [leaves[0], leaves[leaves.len() / 2], leaves[leaves.len() - 1]] {
            // No row has this value, so that none becomes an equal sibling.
            let row = rows[0];
            steps.extend([
                step(REMOVE, leaf),
                step(ADD, leaf),
                step(SET, &Row { value, ..*leaf }),
                step(SET, &Row { value: value + 1_000_000, ..row }),
                step(SET, leaf),
                step(SET, &row),
            ]);
        }
        if steps.len() >= count {
            break;
        }
    }
    steps[..count].concat()
}

/// Steps of which the last is refused: with 8 and, behind a remove, with 9, 11, 26 and 12; with 24 and 23.
pub fn refused_steps(table: &[u32]) -> Vec<Vec<u32>> {
    let rows = rows_of(table);
    let (last, above) = (rows[MOST_ROWS - 1], rows[MOST_ROWS - 2]);
    let removed = step(REMOVE, &last);
    let set = step(SET, &Row { value: LAST_VALUE + 1, ..last });
    let twin = Row { at: last.at, ..above };
    vec![
        [set, step(ADD, &Row { device: 2, ..last })].concat(),
        [removed, step(ADD, &Row { name: MOST_NAME + 1, ..last })].concat(),
        [removed, step(ADD, &Row { up: last.at, deep: 1, ..last })].concat(),
        [removed, step(ADD, &Row { deep: last.deep + 1, ..last })].concat(),
        [removed, step(ADD, &twin)].concat(),
        [removed, removed].concat(),
        [&set[..], &removed[..STEP_WORDS - 1]].concat(),
    ]
}

fn step(kind: u32, row: &Row) -> [u32; STEP_WORDS] {
    let [device, at, up, deep, name, value] = row.words();
    [kind, device, at, up, deep, name, value]
}

/// The accepted rule with the longest file: one quantifier, then connectives, each with a comparison to its
/// left, with -2,147,483,648. No other kind has longer lines.
pub fn longest_rule() -> Vec<u32> {
    let mut rule = vec![5, 1, 0, MOST_NAME];
    while rule.len() / ENTRY_WORDS + 2 < MOST_ENTRIES {
        let place = (rule.len() / ENTRY_WORDS) as u32;
        rule.extend([2, place + 1, place + 2, 0, 9, 0, 1, LEAST_VALUE]);
    }
    rule.extend([9, 0, 1, LEAST_VALUE]);
    rule
}

/// The accepted pool with the longest file: every word has as many digits as it can, and the values, down to
/// -2,147,483,648, have a sign. Each row hangs under the one before, so that none is less deep than it might be.
pub fn longest_pool() -> Vec<u32> {
    let most = MOST_ROWS as u32;
    let row = |deep: u32| {
        let at = MOST_NAME - most + 1 + deep;
        let up = if deep == 0 { 0 } else { at - 1 };
        Row { device: MOST_NAME, at, up, deep, name: MOST_NAME, value: LEAST_VALUE + most - 1 - deep }
    };
    let rows: Vec<Row> = (0..most).map(row).collect();
    words_of(&rows)
}

#[cfg(test)]
mod tests {
    use super::*;
    use crate::answer::Answer;
    use crate::checker::{check_rule, check_set, check_table, fill, fold, rows_after, verdict};

    #[test]
    fn all_are_accepted() {
        for rule in rules() {
            assert_eq!(check_rule(&rule), Answer::Done(rule.len() / 4));
        }
        assert_eq!(check_rule(&longest_rule()), Answer::Done(MOST_ENTRIES));
        for set in sets() {
            assert_eq!(check_set(&set.rules, &set.counts), Answer::Done(MOST_RULES));
        }
        let longest = sets().iter().map(|set| set.rules.len()).max();
        assert_eq!(longest, Some(MOST_RULES * MOST_ENTRIES * ENTRY_WORDS));
        for table in tables().into_iter().chain([table_of_two(), table_of_ends(), longest_pool()]) {
            assert_eq!(check_table(&table), Answer::Done(MOST_ROWS));
        }
    }

    #[test]
    fn so_many_rows_are_left() {
        for (table, left) in tables_to_fold() {
            assert_eq!(table.len(), MOST_ROWS * ROW_WORDS);
            assert_eq!(fold(&table, &mut vec![7; left * ROW_WORDS]), Answer::Done(left));
        }
    }

    /// Some have as many entries, blanks and parameters as may be.
    #[test]
    fn parameters_fill_the_templates() {
        let (mut longest, mut most) = (0, 0);
        for Filling { template, parameters } in fillings() {
            let answer = fill(&template, &parameters, &mut template.clone());
            assert_eq!(answer, Answer::Done(template.len()));
            longest += (template.len() == MOST_ENTRIES * ENTRY_WORDS) as u32;
            most += (parameters.len() == MOST_PARAMETERS) as u32;
        }
        assert!(
            longest >= 10 && most >= 5,
            "{longest} of the longest, {most} with as many parameters as may be"
        );
    }

    /// The table after these steps, or the number of the refusal of one.
    fn after(table: &[u32], steps: &[u32]) -> Result<Vec<Row>, u32> {
        steps.chunks(STEP_WORDS).try_fold(rows_of(table), |rows, step| rows_after(&rows, step))
    }

    #[test]
    fn steps_are_as_described() {
        for table in tables().into_iter().chain([table_of_two(), table_of_ends()]) {
            let steps = steps(&table, 36);
            assert_eq!(after(&table, &steps).map(|rows| words_of(&rows)), Ok(table.clone()));
            let refused = refused_steps(&table).into_iter().map(|steps| {
                let all_but_last = steps.len().div_ceil(STEP_WORDS) - 1;
                after(&table, &steps[..all_but_last * STEP_WORDS]).expect("steps that can be done");
                after(&table, &steps).expect_err("a refused step")
            });
            assert_eq!(refused.collect::<Vec<_>>(), [8, 9, 11, 26, 12, 24, 23]);
        }
    }

    #[test]
    fn quantifiers_decide_at_the_last_rows() {
        assert_eq!(verdict(&quantifiers(LAST), &table_of_two()), Answer::Done(1));
        assert_eq!(verdict(&quantifiers_under_one_another(LAST), &tables()[1]), Answer::Done(1));
    }

    /// All six find rows, of whatever names: those over roots on tables of roots, the others on chains.
    #[test]
    fn quantifiers_over_any_name_find_rows() {
        let [roots, end, path, _, names] = &tables()[..] else { panic!("five tables") };
        let [at_last, under, every, some, some_under] = &over_any_name()[..] else { panic!("five rules") };
        for table in [roots, names] {
            assert_eq!([at_last, under].map(|rule| verdict(rule, table)), [1, 0].map(Answer::Done));
        }
        for table in [end, path] {
            assert_eq!([at_last, under].map(|rule| verdict(rule, table)), [0, 1].map(Answer::Done));
        }
        // A not stands first.
        for table in [roots, end, path, names] {
            assert_eq!([every, some].map(|rule| verdict(rule, table)), [1, 0].map(Answer::Done));
        }
        assert_eq!([roots, path].map(|table| verdict(some_under, table)), [1, 0].map(Answer::Done));
    }
}
