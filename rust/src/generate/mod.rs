//! Random rules, pools and files, accepted and damaged.

mod all_variants;
mod answers;
mod any_name;
mod archive;
mod blocks;
mod chains;
mod changes;
mod colliding_blocks;
mod collisions;
mod conjunction;
mod cost;
mod damaged_blocks;
mod damaged_collisions;
mod damaged_depths;
mod damaged_file;
mod damaged_plan;
mod damaged_rule;
mod damaged_set;
mod damaged_table;
mod damaged_template;
mod depths;
mod digits;
mod far_sets;
mod faults;
mod known_file;
mod known_table;
mod lengths;
mod library_hash;
mod nested;
mod order_of_words;
mod other_fillers;
mod other_foldings;
mod other_markings;
mod other_orders;
#[cfg(test)]
mod plan_tests;
mod plans;
mod pools;
mod requests;
mod rooms;
mod rules;
mod sets;
mod sets_and_blocks;
mod spelled_out;
mod steps;
#[cfg(test)]
mod template_tests;
mod templates;
#[cfg(test)]
mod tests;
mod together;
mod vocabulary;

pub use any_name::{has_any_name, widened, Narrow, OneSided};
pub use archive::{accepted_rows, any_run, rows_of_every_kind, whole_rows};
pub use blocks::{blocks, blocks_of, BlockShape};
pub use changes::{changes, with_other_name, with_other_parent, with_other_values, Change, Changes};
pub use collisions::{colliding_rows, two_colliding_tables};
pub use conjunction::conjunction;
pub use cost::{files_cost, reading_cost, set_cost, verdict_cost};
pub use damaged_blocks::{any_damaged_blocks, damaged_blocks, too_many_blocks};
pub use damaged_collisions::damaged_collisions;
pub use damaged_depths::damaged_depths;
pub use damaged_file::{damaged_file, file_of, file_of_words};
pub use damaged_plan::{any_steps, damaged_plan, with_added_row, with_faulty_step, StepFault, STEP_FAULTS};
pub use damaged_rule::{any_rule, damage_rule, damaged_rule, RULE_FAULTS};
pub use damaged_set::{damage_set, damaged_set, SetFault, SET_FAULTS};
pub use damaged_table::{any_table, damage_table, damaged_table, TABLE_FAULTS};
pub use damaged_template::{damage_filling, damaged_filling, TemplateFault, TEMPLATE_FAULTS};
pub use digits::{
    any_number, ends_of_digits, ends_of_values, number_up_to, renumbered_rule, renumbered_table, width_of,
};
pub use far_sets::{behind_nots, far_apart};
pub use known_file::{known_file, KnownFile, KnownLine};
pub use known_table::KnownTable;
pub use lengths::{
    lengths_around, mostly_enough, one_length_around, some_lengths_around, words_sent, words_sent_for,
};
pub use library_hash::{ats_of_hash, library_hash, place_hash, twin_hash, FACTORS, STEPS};
pub use nested::{nested_rule, NestedRule};
pub use order_of_words::{
    other_marks, other_part, other_trial, other_verdict, other_verdicts, OTHER_TRIAL, OTHER_VERDICT,
};
pub use other_fillers::{blanks_would_pass, OtherFiller};
pub use other_foldings::OtherFolding;
pub use other_markings::OtherMarking;
pub use other_orders::OtherOrder;
pub use plans::{plan, plan_on_a_full_table, plan_on_colliding_rows, Plan, PlanLimit};
pub use pools::{pool, pool_of, PoolShape};
pub use requests::{one_or_several, unknown_mode, with_another_device};
pub use rooms::{any_room, enough_room, short_room};
pub use rules::{rule, rule_of, RuleShape};
pub use sets::{set, set_and_devices, set_and_devices_or_roots, set_and_pool, set_and_roots, Set};
pub use sets_and_blocks::{rule_and_blocks, set_and_blocks, tells_rows_apart};
pub use spelled_out::spelled_out;
pub use templates::{
    any_filling, comparisons, filling, filling_and_pool, filling_of_many, loose_filling, parameter,
    turned_by_others, values_of, Filling,
};
pub use together::{
    any_names_and_devices, damaged_together, deep_rows, nested_rule_and_table, rule_and_any_names,
    rule_and_deep_rows, rule_and_devices, rule_and_pool, rule_and_roots, rule_and_siblings, rule_and_signs,
    Together,
};
pub use vocabulary::{word_of_any_class, Vocabulary, NOT_IN_POOL, NO_RULE};
