//! Checks 8 to 12 and 26, and the rows that a quantifier ranges over.

use super::entry::Quantifier;
use super::tests_of_line::{test, test_each};
use super::MOST_NAME;
use crate::answer::{Answer, Refusal};

pub const ROW_WORDS: usize = 6;
pub const MOST_ROWS: usize = 1_024;

#[derive(Clone, Copy, Debug, PartialEq, Eq)]
pub struct Row {
    pub device: u32,
    pub at: u32,
    pub up: u32,
    /// In an accepted table, how many rows it hangs under.
    pub deep: u32,
    pub name: u32,
    pub value: u32,
}

impl Row {
    // The columns in order, said in these two and in the first line of pool files, which a test compares.

    pub fn from_words([device, at, up, deep, name, value]: [u32; ROW_WORDS]) -> Row {
        Row { device, at, up, deep, name, value }
    }

    pub fn words(&self) -> [u32; ROW_WORDS] {
        let Row { device, at, up, deep, name, value } = *self;
        [device, at, up, deep, name, value]
    }

    pub fn is_root(&self) -> bool {
        self.up == 0
    }

    pub fn is_parent_of(&self, row: &Row) -> bool {
        !row.is_root() && self.device == row.device && self.at == row.up
    }

    /// Any word is a value.
    fn out_of_range(&self) -> bool {
        [self.device, self.at, self.name].iter().any(|&word| !(1..=MOST_NAME).contains(&word))
    }

    /// All roots of the table are siblings, whatever their devices.
    pub fn is_sibling_of(&self, row: &Row) -> bool {
        self.up == row.up && (self.is_root() || self.device == row.device)
    }

    /// Siblings with equal name and value.
    pub fn is_equal_sibling_of(&self, row: &Row) -> bool {
        self.name == row.name && self.value == row.value && self.is_sibling_of(row)
    }
}

pub fn check_table(table: &[u32]) -> Answer {
    accepted_table(table).map(|rows| rows.len()).into()
}

/// The rows of an accepted table, or its refusal.
pub fn accepted_table(table: &[u32]) -> Result<Vec<Row>, Refusal> {
    let rows = accepted_but_siblings(table)?;
    check_siblings(&rows)?;
    Ok(rows)
}

/// The rows of a table that passes all checks but 12, the last; or its refusal.
pub fn accepted_but_siblings(table: &[u32]) -> Result<Vec<Row>, Refusal> {
    check_length(table.len())?;
    let rows = rows_of(table);
    let count = rows.len();
    test_each(9, count, |place| rows[place].out_of_range())?;
    test_each(10, count, |place| {
        place > 0 && (rows[place].device, rows[place].at) <= (rows[place - 1].device, rows[place - 1].at)
    })?;
    test_each(11, count, |place| {
        !rows[place].is_root() && !rows[..place].iter().any(|earlier| earlier.is_parent_of(&rows[place]))
    })?;
    test_each(26, count, |place| wrong_depth(&rows, place))?;
    Ok(rows)
}

/// Check 8, of a length in words.
pub fn check_length(words: usize) -> Result<(), Refusal> {
    test(8, !words.is_multiple_of(ROW_WORDS) || words / ROW_WORDS > MOST_ROWS)
}

/// Check 26. The parent's depth may be any word, and one more than the largest is none.
fn wrong_depth(rows: &[Row], place: usize) -> bool {
    let right = match parent_of(rows, place) {
        Some(parent) => rows[parent].deep.checked_add(1),
        None => Some(0),
    };
    right != Some(rows[place].deep)
}

/// Check 12.
pub fn check_siblings(rows: &[Row]) -> Result<(), Refusal> {
    test_each(12, rows.len(), |place| {
        rows[..place].iter().any(|earlier| earlier.is_equal_sibling_of(&rows[place]))
    })
}

/// The whole rows of any words.
pub fn rows_of(table: &[u32]) -> Vec<Row> {
    table.as_chunks().0.iter().map(|&words| Row::from_words(words)).collect()
}

pub fn words_of(rows: &[Row]) -> Vec<u32> {
    rows.iter().flat_map(Row::words).collect()
}

/// In table order, the rows that the quantifier takes by name and that are roots, or whose parent is the row
/// given.
pub fn range(
    rows: &[Row],
    quantifier: Quantifier,
    parent: Option<usize>,
) -> impl Iterator<Item = usize> + '_ {
    (0..rows.len()).filter(move |&place| {
        let row = &rows[place];
        quantifier.takes(row) && parent.map_or(row.is_root(), |parent| rows[parent].is_parent_of(row))
    })
}

/// The place of a row's parent; none for a root.
pub fn parent_of(rows: &[Row], place: usize) -> Option<usize> {
    (0..place).find(|&earlier| rows[earlier].is_parent_of(&rows[place]))
}

#[cfg(test)]
mod tests {
    use super::*;

    const NO_PARENT: u32 = 60_000;

    /// A device of rows with this up and deep, numbered from 1. No two are equal siblings.
    fn device(rows: &[[u32; 2]]) -> Vec<Row> {
        let row = |(at, &[up, deep]): (u32, &[u32; 2])| Row { device: 1, at, up, deep, name: 1, value: at };
        (1..).zip(rows).map(row).collect()
    }

    fn check(rows: &[Row]) -> Answer {
        check_table(&words_of(rows))
    }

    #[test]
    fn the_columns_are_those_of_pool_files() {
        let row = Row::from_words([0, 1, 2, 3, 4, 5]);
        let names = super::super::POOL.first_line.split_whitespace().zip(0..);
        let fields: Vec<String> = names.map(|(name, place)| format!("{name}: {place}")).collect();
        assert_eq!(format!("{row:?}"), format!("Row {{ {} }}", fields.join(", ")));
        assert_eq!(row.words(), [0, 1, 2, 3, 4, 5]);
    }

    #[test]
    fn right_depths_pass() {
        let path: Vec<[u32; 2]> = (0..MOST_ROWS as u32).map(|place| [place, place]).collect();
        assert_eq!(check(&device(&path)), Answer::Done(MOST_ROWS));
        // Another root, and rows under earlier ones.
        let tree = [[0, 0], [1, 1], [2, 2], [1, 1], [0, 0], [3, 3], [5, 1]];
        assert_eq!(check(&device(&tree)), Answer::Done(7));
        // The same at in another device is another row.
        let mut two = device(&[[0, 0], [1, 1], [0, 0], [2, 2]]);
        (two[2].device, two[2].at, two[3].device, two[3].up, two[3].deep) = (2, 2, 2, 2, 1);
        assert_eq!(check(&two), Answer::Done(4));
    }

    #[test]
    fn a_wrong_depth_is_refused_at_its_row() {
        for deep in [1, 2, u32::MAX] {
            assert_eq!(check(&device(&[[0, deep]])), Answer::refused(26, 0), "root {deep}");
            assert_eq!(check(&device(&[[0, 0], [1, 1], [0, deep]])), Answer::refused(26, 2), "root {deep}");
        }
        // The parent's own depth, two more, less, the largest word.
        for deep in [1, 3, 0, u32::MAX] {
            let rows = device(&[[0, 0], [1, 1], [2, deep], [1, 1]]);
            assert_eq!(check(&rows), Answer::refused(26, 2), "child {deep}");
        }
    }

    #[test]
    fn the_first_wrong_depth_is_the_place() {
        // What hangs under a wrong depth may agree with it or not.
        for under in [1, 2, 3, u32::MAX] {
            assert_eq!(check(&device(&[[0, 0], [1, 2], [2, under]])), Answer::refused(26, 1), "{under}");
        }
        assert_eq!(check(&device(&[[0, 0], [1, 1], [1, 5], [0, 7], [2, 0]])), Answer::refused(26, 2));
        assert_eq!(check(&device(&[[0, 1], [1, 2], [2, 3]])), Answer::refused(26, 0));
    }

    /// One more than the largest word is no word: not 0 either.
    #[test]
    fn nothing_wraps() {
        for under in [0, u32::MAX] {
            let rows = device(&[[0, u32::MAX], [1, under]]);
            assert_eq!(check(&rows), Answer::refused(26, 0));
            assert!(wrong_depth(&rows, 1), "{under}");
        }
    }

    #[test]
    fn depth_has_no_range() {
        let mut rows = device(&[[0, 0], [1, u32::MAX], [1, 1]]);
        assert_eq!(check(&rows), Answer::refused(26, 1));
        rows[2].name = MOST_NAME + 1;
        assert_eq!(check(&rows), Answer::refused(9, 2));
        rows[2] = rows[1];
        assert_eq!(check(&rows), Answer::refused(10, 2));
    }

    #[test]
    fn a_missing_parent_comes_first_wherever_it_stands() {
        for (wrong, orphan) in [(0, 3), (3, 0), (1, 2), (2, 1), (2, 2)] {
            let mut rows = device(&[[0, 0], [1, 1], [2, 2], [3, 3]]);
            rows[wrong].deep += 1;
            rows[orphan].up = NO_PARENT;
            assert_eq!(check(&rows), Answer::refused(11, orphan), "{rows:?}");
        }
    }

    #[test]
    fn equal_siblings_come_last_wherever_they_stand() {
        for wrong in 0..5 {
            let mut rows = device(&[[0, 0], [1, 1], [1, 1], [1, 1], [4, 2]]);
            rows[2].value = rows[1].value;
            assert_eq!(check(&rows), Answer::refused(12, 2));
            rows[wrong].deep += 1;
            assert_eq!(check(&rows), Answer::refused(26, wrong));
        }
    }
}
