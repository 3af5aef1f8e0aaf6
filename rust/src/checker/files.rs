//! Reading and writing the two kinds of file.

use super::rule::{accepted_rule, ENTRY_WORDS};
use super::table::{accepted_table, ROW_WORDS};
use super::tests_of_line::test;
use super::values::{value_of, word_of};
use crate::answer::{Answer, Refusal};

pub struct Format {
    /// The line of names, with its byte 10.
    pub first_line: &'static str,
    pub columns: usize,
    /// Whether the next number of a line has a sign if it is below zero, given those before it in that line.
    is_signed: fn(&[u32]) -> bool,
}

/// c of a comparison with a constant is signed.
pub const RULE: Format = Format {
    first_line: "kind a b c\n",
    columns: ENTRY_WORDS,
    is_signed: |before| matches!(before, [7..=9, _, 1]),
};
/// The value is signed.
pub const POOL: Format = Format {
    first_line: "device at up deep name value\n",
    columns: ROW_WORDS,
    is_signed: |before| matches!(before, [_, _, _, _, _]),
};

pub fn read_rule(file: &[u8], rule: &mut [u32]) -> Answer {
    read(RULE.words_of(file), rule)
}

pub fn read_pool(file: &[u8], table: &mut [u32]) -> Answer {
    read(POOL.words_of(file), table)
}

pub fn write_rule(rule: &[u32], file: &mut [u8]) -> Answer {
    put(accepted_rule(rule).map(|_| RULE.text_of(rule)), file).into()
}

pub fn write_pool(table: &[u32], file: &mut [u8]) -> Answer {
    put(accepted_table(table).map(|_| POOL.text_of(table)), file).into()
}

fn read(words: Result<Vec<u32>, Refusal>, output: &mut [u32]) -> Answer {
    put(words, output).into()
}

/// Puts an answer at the start of its output; 17 is the last check.
pub fn put<T: Copy>(answer: Result<Vec<T>, Refusal>, output: &mut [T]) -> Result<usize, Refusal> {
    let answer = answer?;
    test(17, output.len() < answer.len())?;
    output[..answer.len()].copy_from_slice(&answer);
    Ok(answer.len())
}

impl Format {
    /// Checks 18 and 19.
    pub fn words_of(&self, file: &[u8]) -> Result<Vec<u32>, Refusal> {
        let lines = file.strip_prefix(self.first_line.as_bytes());
        let lines = lines.ok_or(Refusal { number: 18, place: 1 })?;
        let mut words = vec![];
        for (index, line) in lines.split_inclusive(|&byte| byte == b'\n').enumerate() {
            let values = self.line_of_values(line);
            words.extend(values.ok_or(Refusal { number: 19, place: index + 2 })?);
        }
        Ok(words)
    }

    fn line_of_values(&self, line: &[u8]) -> Option<Vec<u32>> {
        let line = line.strip_suffix(b"\n")?;
        let mut words = vec![];
        for text in line.split(|&byte| byte == b' ') {
            let read = if (self.is_signed)(&words) { signed_number } else { number };
            words.push(read(text)?);
        }
        Some(words).filter(|words| words.len() == self.columns)
    }

    /// Numbers are written by Rust's own formatting, apart from the library's way.
    pub fn text_of(&self, words: &[u32]) -> Vec<u8> {
        let mut text = self.first_line.to_string();
        for line in words.chunks(self.columns) {
            let number = |place: usize| match (self.is_signed)(&line[..place]) {
                true => value_of(line[place]).to_string(),
                false => line[place].to_string(),
            };
            let numbers: Vec<String> = (0..line.len()).map(number).collect();
            text += &numbers.join(" ");
            text += "\n";
        }
        text.into_bytes()
    }
}

/// The word of a value: a number as below, or a minus sign and one that is not 0.
fn signed_number(text: &[u8]) -> Option<u32> {
    let value = match text.strip_prefix(b"-") {
        Some(digits) => -i64::from(number(digits).filter(|&number| number != 0)?),
        None => i64::from(number(text)?),
    };
    word_of(value)
}

/// Digits without a leading zero, up to 4,294,967,295.
fn number(digits: &[u8]) -> Option<u32> {
    let decimal = !digits.is_empty() && digits.iter().all(u8::is_ascii_digit);
    let leading_zero = digits.len() > 1 && digits[0] == b'0';
    if !decimal || leading_zero {
        return None;
    }
    std::str::from_utf8(digits).ok()?.parse().ok()
}
