//! The checker, written from the contract alone. It shares nothing with the library that it is compared
//! with. Each call of the C interface has a function of the same name here, which gives the same answer
//! and leaves the same content in its buffers.

mod archive;
mod device;
#[cfg(test)]
mod elsewhere;
mod entry;
mod files;
mod files_entry;
mod fold;
mod join;
mod marks;
mod part;
mod published;
mod reach;
mod reading;
mod report;
mod rule;
mod set;
mod spare;
mod table;
mod template;
mod tests_of_line;
mod trial;
mod values;
mod verdict;
#[cfg(test)]
mod worked;
#[cfg(test)]
mod worked_any_name;
#[cfg(test)]
mod worked_archive;
#[cfg(test)]
mod worked_fold;
#[cfg(test)]
mod worked_signs;
#[cfg(test)]
mod worked_templates;
#[cfg(test)]
mod worked_trials;

pub use archive::{columns_of, from_columns, table_of, to_columns};
pub use device::{device_rows, devices_of};
pub use entry::{Entry, Quantifier, Relation};
pub use files::{read_pool, read_rule, write_pool, write_rule, Format, POOL, RULE};
pub use files_entry::check_files;
pub use fold::{equal_siblings, fold, folded_rows, with_pair_folded};
pub use join::join;
pub use marks::marks;
pub use part::part;
pub use published::Published;
pub use reach::{fewest_around, is_reached};
pub use report::{report, report_text, MOST_FILE_BYTES};
pub use rule::{accepted_rule, check_rule, ENTRY_WORDS, MOST_ENTRIES, MOST_NESTED};
pub use set::{accepted_set, check_set, rules_of, set_part, set_verdicts, verdicts_on, MOST_RULES};
pub use spare::{spare_rows, spare_rows_reached_by};
pub use table::{
    accepted_but_siblings, accepted_table, check_table, parent_of, rows_of, words_of, Row, MOST_ROWS,
    ROW_WORDS,
};
pub use template::{accepted_template, fill, filled, is_blank, template_verdict, MOST_PARAMETERS};
pub use trial::{rows_after, tried, try_plan, Room, Tried, ADD, REMOVE, SET, STEP_WORDS};
pub use values::{value_of, word_of, LEAST_VALUE, MOST_VALUE};
pub use verdict::{verdict, Evaluation};

/// The largest device, at or name.
pub const MOST_NAME: u32 = 65_535;
/// The name of a quantifier that takes rows of any name. No row has it.
pub const ANY_NAME: u32 = 0;
