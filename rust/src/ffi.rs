//! A safe wrapper over the C interface, one module for each feature.

// With a feature off, what only it uses has no user.
#![allow(dead_code)]

use std::cell::Cell;

use crate::answer::Answer;

thread_local! {
    static NULL_FOR_EMPTY: Cell<bool> = const { Cell::new(false) };
}

/// Whether this thread lends an empty run as NULL; else as its own pointer, which may be dangling.
pub fn null_for_empty(null: bool) {
    NULL_FOR_EMPTY.set(null);
}

#[cfg(feature = "lower")]
pub use lower::*;

#[cfg(feature = "engine")]
pub use engine::*;

#[cfg(feature = "parts")]
pub use parts::*;

#[cfg(feature = "files_entry")]
pub use files_entry::*;

#[cfg(feature = "sets")]
pub use sets::*;

#[cfg(feature = "trial")]
pub use trial::*;

#[cfg(feature = "templates")]
pub use templates::*;

#[cfg(feature = "archive")]
pub use archive::*;

#[cfg(feature = "fold")]
pub use fold::*;

#[repr(C)]
struct RawAnswer {
    number: u32,
    place: usize,
    value: usize,
}

fn answer(raw: RawAnswer) -> Answer {
    Answer::from_words(raw.number, raw.place, raw.value)
}

fn lent<T>(run: &[T]) -> *const T {
    if run.is_empty() && NULL_FOR_EMPTY.get() {
        std::ptr::null()
    } else {
        run.as_ptr()
    }
}

fn lent_mut<T>(run: &mut [T]) -> *mut T {
    if run.is_empty() && NULL_FOR_EMPTY.get() {
        std::ptr::null_mut()
    } else {
        run.as_mut_ptr()
    }
}

#[cfg(feature = "lower")]
mod lower {
    use super::*;
    use crate::answer::Span;

    extern "C" {
        fn gabzeril_check_rule(rule: *const u32, rule_length: usize) -> RawAnswer;
        fn gabzeril_check_table(table: *const u32, table_length: usize) -> RawAnswer;
        fn gabzeril_join(
            pool: *mut u32,
            pool_length: usize,
            used: usize,
            second: *const u32,
            second_length: usize,
        ) -> RawAnswer;
        fn gabzeril_device_rows(table: *const u32, table_length: usize, device: u32) -> Span;
        fn gabzeril_read_rule(
            file: *const u8,
            file_length: usize,
            rule: *mut u32,
            rule_length: usize,
        ) -> RawAnswer;
        fn gabzeril_read_pool(
            file: *const u8,
            file_length: usize,
            table: *mut u32,
            table_length: usize,
        ) -> RawAnswer;
        fn gabzeril_write_rule(
            rule: *const u32,
            rule_length: usize,
            file: *mut u8,
            file_length: usize,
        ) -> RawAnswer;
        fn gabzeril_write_pool(
            table: *const u32,
            table_length: usize,
            file: *mut u8,
            file_length: usize,
        ) -> RawAnswer;
    }

    // SAFETY, here and below: every pointer comes with the length of its own slice, and Rust's borrows
    // keep the buffers of one call apart.

    pub fn check_rule(rule: &[u32]) -> Answer {
        answer(unsafe { gabzeril_check_rule(lent(rule), rule.len()) })
    }

    pub fn check_table(table: &[u32]) -> Answer {
        answer(unsafe { gabzeril_check_table(lent(table), table.len()) })
    }

    pub fn join(pool: &mut [u32], used: usize, second: &[u32]) -> Answer {
        answer(unsafe { gabzeril_join(lent_mut(pool), pool.len(), used, lent(second), second.len()) })
    }

    pub fn device_rows(table: &[u32], device: u32) -> Span {
        unsafe { gabzeril_device_rows(lent(table), table.len(), device) }
    }

    pub fn read_rule(file: &[u8], rule: &mut [u32]) -> Answer {
        answer(unsafe { gabzeril_read_rule(lent(file), file.len(), lent_mut(rule), rule.len()) })
    }

    pub fn read_pool(file: &[u8], table: &mut [u32]) -> Answer {
        answer(unsafe { gabzeril_read_pool(lent(file), file.len(), lent_mut(table), table.len()) })
    }

    pub fn write_rule(rule: &[u32], file: &mut [u8]) -> Answer {
        answer(unsafe { gabzeril_write_rule(lent(rule), rule.len(), lent_mut(file), file.len()) })
    }

    pub fn write_pool(table: &[u32], file: &mut [u8]) -> Answer {
        answer(unsafe { gabzeril_write_pool(lent(table), table.len(), lent_mut(file), file.len()) })
    }
}

#[cfg(feature = "engine")]
mod engine {
    use super::*;

    extern "C" {
        fn gabzeril_verdict(
            rule: *const u32,
            rule_length: usize,
            pool: *const u32,
            pool_length: usize,
        ) -> RawAnswer;
        fn gabzeril_marks(
            rule: *const u32,
            rule_length: usize,
            pool: *const u32,
            pool_length: usize,
            marks: *mut u8,
            marks_length: usize,
        ) -> RawAnswer;
    }

    pub fn verdict(rule: &[u32], pool: &[u32]) -> Answer {
        answer(unsafe { gabzeril_verdict(lent(rule), rule.len(), lent(pool), pool.len()) })
    }

    pub fn marks(rule: &[u32], pool: &[u32], marks: &mut [u8]) -> Answer {
        let length = marks.len();
        answer(unsafe {
            gabzeril_marks(lent(rule), rule.len(), lent(pool), pool.len(), lent_mut(marks), length)
        })
    }
}

#[cfg(feature = "parts")]
mod parts {
    use super::*;

    extern "C" {
        fn gabzeril_part(
            rule: *const u32,
            rule_length: usize,
            table: *const u32,
            table_length: usize,
            mode: u32,
            part: *mut u32,
            part_length: usize,
        ) -> RawAnswer;
    }

    pub fn part(rule: &[u32], table: &[u32], mode: u32, part: &mut [u32]) -> Answer {
        let length = part.len();
        answer(unsafe {
            gabzeril_part(lent(rule), rule.len(), lent(table), table.len(), mode, lent_mut(part), length)
        })
    }
}

#[cfg(feature = "files_entry")]
mod files_entry {
    use super::*;

    extern "C" {
        fn gabzeril_check_files(
            rule_file: *const u8,
            rule_file_length: usize,
            pool_file: *const u8,
            pool_file_length: usize,
        ) -> u32;
        fn gabzeril_report(
            rule_file: *const u8,
            rule_file_length: usize,
            pool_file: *const u8,
            pool_file_length: usize,
            text: *mut u8,
            text_length: usize,
        ) -> usize;
    }

    pub fn check_files(rule_file: &[u8], pool_file: &[u8]) -> u32 {
        unsafe { gabzeril_check_files(lent(rule_file), rule_file.len(), lent(pool_file), pool_file.len()) }
    }

    pub fn report(rule_file: &[u8], pool_file: &[u8], text: &mut [u8]) -> usize {
        let (rule_length, pool_length, length) = (rule_file.len(), pool_file.len(), text.len());
        unsafe {
            gabzeril_report(
                lent(rule_file),
                rule_length,
                lent(pool_file),
                pool_length,
                lent_mut(text),
                length,
            )
        }
    }
}

#[cfg(feature = "sets")]
mod sets {
    use super::*;

    extern "C" {
        fn gabzeril_check_set(
            rules: *const u32,
            rules_length: usize,
            counts: *const u32,
            counts_length: usize,
        ) -> RawAnswer;
        fn gabzeril_set_verdicts(
            rules: *const u32,
            rules_length: usize,
            counts: *const u32,
            counts_length: usize,
            pool: *const u32,
            pool_length: usize,
            verdicts: *mut u8,
            verdicts_length: usize,
        ) -> RawAnswer;
        fn gabzeril_set_part(
            rules: *const u32,
            rules_length: usize,
            counts: *const u32,
            counts_length: usize,
            table: *const u32,
            table_length: usize,
            mode: u32,
            part: *mut u32,
            part_length: usize,
        ) -> RawAnswer;
    }

    pub fn check_set(rules: &[u32], counts: &[u32]) -> Answer {
        answer(unsafe { gabzeril_check_set(lent(rules), rules.len(), lent(counts), counts.len()) })
    }

    pub fn set_verdicts(rules: &[u32], counts: &[u32], pool: &[u32], verdicts: &mut [u8]) -> Answer {
        let length = verdicts.len();
        answer(unsafe {
            gabzeril_set_verdicts(
                lent(rules),
                rules.len(),
                lent(counts),
                counts.len(),
                lent(pool),
                pool.len(),
                lent_mut(verdicts),
                length,
            )
        })
    }

    pub fn set_part(rules: &[u32], counts: &[u32], table: &[u32], mode: u32, part: &mut [u32]) -> Answer {
        let length = part.len();
        answer(unsafe {
            gabzeril_set_part(
                lent(rules),
                rules.len(),
                lent(counts),
                counts.len(),
                lent(table),
                table.len(),
                mode,
                lent_mut(part),
                length,
            )
        })
    }
}

#[cfg(feature = "trial")]
mod trial {
    use super::*;
    use crate::answer::Trial;

    extern "C" {
        fn gabzeril_try(
            rules: *const u32,
            rules_length: usize,
            counts: *const u32,
            counts_length: usize,
            pool: *const u32,
            pool_length: usize,
            steps: *const u32,
            steps_length: usize,
            table: *mut u32,
            table_length: usize,
            verdicts: *mut u8,
            verdicts_length: usize,
        ) -> Trial;
    }

    pub fn try_plan(
        rules: &[u32],
        counts: &[u32],
        pool: &[u32],
        steps: &[u32],
        table: &mut [u32],
        verdicts: &mut [u8],
    ) -> Trial {
        let (table_length, verdicts_length) = (table.len(), verdicts.len());
        unsafe {
            gabzeril_try(
                lent(rules),
                rules.len(),
                lent(counts),
                counts.len(),
                lent(pool),
                pool.len(),
                lent(steps),
                steps.len(),
                lent_mut(table),
                table_length,
                lent_mut(verdicts),
                verdicts_length,
            )
        }
    }
}

#[cfg(feature = "templates")]
mod templates {
    use super::*;

    extern "C" {
        fn gabzeril_fill(
            template_words: *const u32,
            template_length: usize,
            parameters: *const u32,
            parameters_length: usize,
            rule: *mut u32,
            rule_length: usize,
        ) -> RawAnswer;
    }

    pub fn fill(template: &[u32], parameters: &[u32], rule: &mut [u32]) -> Answer {
        let length = rule.len();
        answer(unsafe {
            gabzeril_fill(
                lent(template),
                template.len(),
                lent(parameters),
                parameters.len(),
                lent_mut(rule),
                length,
            )
        })
    }
}

#[cfg(feature = "archive")]
mod archive {
    use super::*;

    extern "C" {
        fn gabzeril_to_columns(
            table: *const u32,
            table_length: usize,
            columns: *mut u32,
            columns_length: usize,
        ) -> RawAnswer;
        fn gabzeril_from_columns(
            columns: *const u32,
            columns_length: usize,
            table: *mut u32,
            table_length: usize,
        ) -> RawAnswer;
    }

    pub fn to_columns(table: &[u32], columns: &mut [u32]) -> Answer {
        answer(unsafe { gabzeril_to_columns(lent(table), table.len(), lent_mut(columns), columns.len()) })
    }

    pub fn from_columns(columns: &[u32], table: &mut [u32]) -> Answer {
        answer(unsafe { gabzeril_from_columns(lent(columns), columns.len(), lent_mut(table), table.len()) })
    }
}

#[cfg(feature = "fold")]
mod fold {
    use super::*;

    extern "C" {
        fn gabzeril_fold(
            table: *const u32,
            table_length: usize,
            folded: *mut u32,
            folded_length: usize,
        ) -> RawAnswer;
    }

    pub fn fold(table: &[u32], folded: &mut [u32]) -> Answer {
        answer(unsafe { gabzeril_fold(lent(table), table.len(), lent_mut(folded), folded.len()) })
    }
}
