//! The archive's order: column after column; each word of a column but the first as its difference from the row above.

use super::files::put;
use super::table::ROW_WORDS;
use super::tests_of_line::test;
use crate::answer::{Answer, Refusal};

pub fn to_columns(table: &[u32], columns: &mut [u32]) -> Answer {
    put(columns_of(table, ROW_WORDS), columns).into()
}

pub fn from_columns(columns: &[u32], table: &mut [u32]) -> Answer {
    put(table_of(columns, ROW_WORDS), table).into()
}

/// The archive's order of rows of so many words; or the refusal, 28.
pub fn columns_of(table: &[u32], row_words: usize) -> Result<Vec<u32>, Refusal> {
    check_whole(table, row_words)?;
    let column = |place: usize| -> Vec<u32> { table.chunks(row_words).map(|row| row[place]).collect() };
    Ok((0..row_words).flat_map(|place| differences(&column(place))).collect())
}

/// The rows of so many words whose archive's order this is; or the refusal, 28.
pub fn table_of(columns: &[u32], row_words: usize) -> Result<Vec<u32>, Refusal> {
    check_whole(columns, row_words)?;
    let rows = columns.len() / row_words;
    let columns: Vec<Vec<u32>> =
        (0..row_words).map(|column| sums(&columns[column * rows..][..rows])).collect();
    Ok((0..rows).flat_map(|row| columns.iter().map(move |column| column[row])).collect())
}

fn check_whole(words: &[u32], row_words: usize) -> Result<(), Refusal> {
    test(28, !words.len().is_multiple_of(row_words))
}

/// The first word of a column, then each one's difference from the one above it.
fn differences(column: &[u32]) -> Vec<u32> {
    let below = column.windows(2).map(|words| words[1].wrapping_sub(words[0]));
    column.iter().take(1).copied().chain(below).collect()
}

/// The column whose differences these are: each word is the sum of those up to it.
fn sums(differences: &[u32]) -> Vec<u32> {
    let mut sum = 0_u32;
    let mut column = vec![];
    for difference in differences {
        sum = sum.wrapping_add(*difference);
        column.push(sum);
    }
    column
}
