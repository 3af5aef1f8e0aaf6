//! The text that the program prints.

use super::device::devices_of;
use super::files_entry::accepted_files;
use super::marks::marks_of;
use super::part::part_of;
use super::table::ROW_WORDS;
use crate::answer::Refusal;

/// The limit of the program, for each file.
pub const MOST_FILE_BYTES: usize = 65_536;

/// The number of bytes written; 0 if the text does not fit.
pub fn report(rule_file: &[u8], pool_file: &[u8], text: &mut [u8]) -> usize {
    let whole = report_text(rule_file, pool_file).into_bytes();
    if whole.len() > text.len() {
        return 0;
    }
    text[..whole.len()].copy_from_slice(&whole);
    whole.len()
}

pub fn report_text(rule_file: &[u8], pool_file: &[u8]) -> String {
    match numbers(rule_file, pool_file) {
        Ok([verdict, rows, branch, full, marks]) => {
            format!("verdict rows branch full marks\n{verdict} {rows} {branch} {full} {marks}\n")
        }
        Err(refusal) => format!("refused place\n{} {}\n", refusal.number, refusal.place),
    }
}

fn numbers(rule_file: &[u8], pool_file: &[u8]) -> Result<[usize; 5], Refusal> {
    let (rule, pool) = accepted_files(rule_file, pool_file, MOST_FILE_BYTES)?;
    let (verdict, marks) = marks_of(&rule, &pool)?;
    let branch = rows_sent(&rule, &pool, 2)?;
    let full = rows_sent(&rule, &pool, 3)?;
    let marked = marks.iter().filter(|&&mark| mark == 1).count();
    Ok([verdict as usize, marks.len(), branch, full, marked])
}

/// The rows of all parts, each made on the rows of its device.
fn rows_sent(rule: &[u32], pool: &[u32], mode: u32) -> Result<usize, Refusal> {
    let parts: Result<Vec<_>, _> =
        devices_of(pool).into_iter().map(|device| part_of(rule, device, mode)).collect();
    Ok(parts?.iter().map(|part| part.len() / ROW_WORDS).sum())
}
