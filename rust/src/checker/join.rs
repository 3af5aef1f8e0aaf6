//! Joining, in place.

use super::table::{accepted_table, check_length, check_siblings, rows_of};
use super::tests_of_line::test;
use crate::answer::{Answer, Refusal};

pub fn join(pool: &mut [u32], used: usize, second: &[u32]) -> Answer {
    let result = joined(pool, used, second);
    if let Ok(joined) = &result {
        pool[..joined.len()].copy_from_slice(joined);
    }
    result.map(|joined| joined.len()).into()
}

fn joined(pool: &[u32], used: usize, second: &[u32]) -> Result<Vec<u32>, Refusal> {
    test(8, used > pool.len())?;
    let first = &pool[..used];
    let first_rows = accepted_table(first)?;
    let second_rows = accepted_table(second)?;
    if let (Some(last), Some(next)) = (first_rows.last(), second_rows.first()) {
        test(16, next.device <= last.device)?;
    }
    let joined = [first, second].concat();
    check_length(joined.len())?;
    check_siblings(&rows_of(&joined))?;
    test(17, pool.len() < joined.len())?;
    Ok(joined)
}
