//! The cases, in the order in which they are printed.

use std::collections::HashSet;

use gabzeril_tests::checker::{rows_of, words_of, POOL, ROW_WORDS, RULE};
use gabzeril_tests::largest;

use crate::any_name;
use crate::archive;
use crate::calls::Call;
use crate::fold;
use crate::inputs::{
    all_in_one_chain, children_in_one_chain, deep, devices, early, gathered, late, longest_without_signs,
    names_in_one_chain, one_device, path, places_in_one_chain, roots, roots_across_zero, roots_in_one_chain,
    rule_book, values_below_zero, values_of_nines, values_of_ten_digits, with_no_parent, with_wrong_depth,
    with_wrong_depths, A, B, C, ORDER,
};
use crate::pairs;
use crate::templates;
use crate::trial;

pub struct Case {
    pub call: Call,
    pub on: String,
    pub rows: u32,
    /// Whether the checker is not timed: it takes too long, or has no such call.
    pub long: bool,
}

impl Case {
    /// What names the case in files of counts.
    pub fn label(&self) -> String {
        label(&self.call.name(), &self.on, self.rows)
    }
}

pub fn label(call: &str, on: &str, rows: u32) -> String {
    format!("{call}, {on}, {rows} rows")
}

pub fn case(call: Call, on: impl Into<String>, rows: u32) -> Case {
    Case { long: call.is_long(), call, on: on.into(), rows }
}

fn verdict(rule: &[u32], pool: Vec<u32>) -> Call {
    Call::Verdict { rule: rule.to_vec(), pool }
}

fn marks(rule: &[u32], pool: Vec<u32>) -> Call {
    Call::Marks { rule: rule.to_vec(), pool }
}

fn write_pool(table: Vec<u32>) -> Call {
    Call::WritePool { table, room: None }
}

/// The same into a buffer that just fits.
fn write_pool_just_fits(table: Vec<u32>) -> Call {
    let room = Some(POOL.text_of(&table).len());
    Call::WritePool { table, room }
}

pub const THREE_ROWS: &str = "devices of three rows";
const TEN_DIGITS: &str = "devices of three rows, values of ten digits";
const NINES: &str = "devices of three rows, values of nines";
pub const BELOW_ZERO: &str = "devices of three rows, values below zero";
const LONGEST: &str = "longest rule, 128 entries";
pub const ONE_DEVICE: &str = "one device";
/// Each row hangs under the one before.
pub const PATH: &str = "one path of rows";
pub const A_TRUE: &str = "rule A true, devices of three rows";
pub const B_TRUE: &str = "rule B true, devices of three rows";
pub const C_TRUE: &str = "rule C true, one device";
/// All rows have one hash in the checks of parents and depths.
const PLACES: &str = "places in one chain";
/// Each variable has its own comparison: a reading goes deeper with the last row only.
const DEEP: &str = "deep rule, roots";
/// Every comparison uses the innermost variable: a reading goes down to it with any row.
const LATE: &str = "late rule, roots";
/// No comparison uses the innermost variable: a reading need not bind it.
const EARLY: &str = "early rule, roots";

pub const ORDER_ON_ROOTS: &str = "order rule, roots";
pub const LONGEST_WITHOUT_SIGNS: &str = "longest rule without signs, 128 entries";
pub const BOOK: &str = "rule book of 20";
pub const BOOK_ON_DEVICES: &str = "rule book of 20, devices of three rows";
pub const BOOK_ON_ONE_DEVICE: &str = "rule book of 20, one device";

pub fn all() -> Vec<Case> {
    let mut cases = vec![];
    for rows in [512, 1_020, 1_024] {
        cases.push(case(Call::CheckTable { table: devices(rows, 1) }, THREE_ROWS, rows));
    }
    for rows in [512, 1_024] {
        cases.push(case(Call::CheckTable { table: roots(rows, 1) }, "roots of one device", rows));
        let table = roots(rows, 1_024);
        cases.push(case(Call::CheckTable { table }, "roots, values multiples of 1,024", rows));
        let table = roots_in_one_chain(rows);
        cases.push(case(Call::CheckTable { table }, "roots, all in one chain", rows));
        let table = names_in_one_chain(rows);
        cases.push(case(Call::CheckTable { table }, "roots, all in one chain, few values", rows));
        let table = children_in_one_chain(rows);
        cases.push(case(Call::CheckTable { table }, "equal children of many roots, in one chain", rows));
    }
    for rows in [64, 256, 1_020, 1_024] {
        on_devices(&mut cases, rows);
    }
    parts(&mut cases, &A, &devices(3, 1), "rule A, a device of three rows");
    parts(&mut cases, &B, &devices(3, 1), "rule B, a device of three rows");
    for rows in [64, 256, 1_021, 1_024] {
        on_one_device(&mut cases, rows);
    }
    parts(&mut cases, &B, &gathered(900), "rule B, roots of three rows in one device");
    for rows in [64, 256, 1_024] {
        on_roots(&mut cases, rows);
    }
    for rows in [512, 1_024] {
        refused_at_the_last_row(&mut cases, rows);
    }
    for rows in [512, 1_024] {
        on_one_chain(&mut cases, rows);
    }
    of_the_rule_book(&mut cases);
    trial::add_cases(&mut cases);
    written_numbers(&mut cases);
    signs(&mut cases);
    any_name::add_cases(&mut cases);
    templates::add_cases(&mut cases);
    archive::add_cases(&mut cases);
    // Some of its table checks are there already.
    let known: HashSet<String> = cases.iter().map(Case::label).collect();
    cases.extend(fold::cases().into_iter().filter(|case| !known.contains(&case.label())));
    cases.extend(pairs::cases());
    cases
}

/// Comparisons in order, and files with and without signs.
fn signs(cases: &mut Vec<Case>) {
    let rows = 256;
    cases.push(case(verdict(&ORDER, roots(rows, 1)), ORDER_ON_ROOTS, rows));
    cases.push(case(verdict(&ORDER, roots_across_zero(rows)), "order rule, roots across zero", rows));
    let rows = 1_020;
    for (table, on) in [(values_of_ten_digits(rows), TEN_DIGITS), (values_below_zero(rows), BELOW_ZERO)] {
        cases.push(case(Call::ReadPool { file: POOL.text_of(&table) }, on, rows));
    }
    cases.push(case(write_pool(values_below_zero(rows)), BELOW_ZERO, rows));
    let rules = [(longest_without_signs(), LONGEST_WITHOUT_SIGNS), (largest::longest_rule(), LONGEST)];
    for (rule, on) in rules {
        cases.push(case(Call::ReadRule { file: RULE.text_of(&rule) }, on, 0));
    }
    cases.push(case(Call::WriteRule { rule: largest::longest_rule() }, LONGEST, 0));
}

/// Writing of numbers with many digits, and with the largest digits.
fn written_numbers(cases: &mut Vec<Case>) {
    for rows in [64, 1_020] {
        cases.push(case(write_pool(values_of_ten_digits(rows)), TEN_DIGITS, rows));
        cases.push(case(write_pool(values_of_nines(rows)), NINES, rows));
    }
    // Rule B too, since the check of a long rule takes far more than its writing.
    for (rule, on) in [(B.to_vec(), "rule B"), (longest_without_signs(), LONGEST_WITHOUT_SIGNS)] {
        cases.push(case(Call::WriteRule { rule }, on, 0));
    }
    let rows = 1_020;
    let tables = [devices(rows, 1), values_of_ten_digits(rows), values_of_nines(rows)];
    for (table, on) in tables.into_iter().zip([THREE_ROWS, TEN_DIGITS, NINES]) {
        cases.push(case(write_pool_just_fits(table), format!("{on}, a buffer that just fits"), rows));
    }
}

/// The calls on a set beside those on each of its rules.
fn of_the_rule_book(cases: &mut Vec<Case>) {
    let set = rule_book();
    cases.push(case(Call::CheckSet { set: set.clone() }, BOOK, 0));
    let pool = devices(1_020, 1);
    let call = Call::EachVerdict { set: set.clone(), pool: pool.clone() };
    cases.push(case(call, BOOK_ON_DEVICES, 1_020));
    cases.push(case(Call::SetVerdicts { set: set.clone(), pool }, BOOK_ON_DEVICES, 1_020));
    for rows in [300, 1_020] {
        let table = one_device(rows);
        for mode in [2, 3] {
            let call = Call::EachPart { set: set.clone(), table: table.clone(), mode };
            cases.push(case(call, BOOK_ON_ONE_DEVICE, rows));
            let call = Call::SetPart { set: set.clone(), table: table.clone(), mode };
            cases.push(case(call, BOOK_ON_ONE_DEVICE, rows));
        }
    }
}

/// The longest that the checks of parents and depths take.
fn on_one_chain(cases: &mut Vec<Case>, rows: u32) {
    let table = places_in_one_chain(rows);
    let mut add = |table: Vec<u32>, on: String| cases.push(case(Call::CheckTable { table }, on, rows));
    add(table.clone(), PLACES.into());
    add(with_wrong_depth(&table), format!("{PLACES}, refused with 26 at the last row"));
    add(with_wrong_depths(&table), format!("{PLACES}, refused with 26, all children wrong"));
    add(all_in_one_chain(rows), "places and siblings in one chain".into());
}

/// The parent's depth is looked at for every row, and each of these tables is refused by its last.
fn refused_at_the_last_row(cases: &mut Vec<Case>, rows: u32) {
    for (table, on) in [(devices(rows, 1), THREE_ROWS), (one_device(rows), ONE_DEVICE), (path(rows), PATH)] {
        let mut add = |table: Vec<u32>, number: u32| {
            let on = format!("{on}, refused with {number} at the last row");
            cases.push(case(Call::CheckTable { table }, on, rows));
        };
        add(with_no_parent(&table), 11);
        add(with_wrong_depth(&table), 26);
    }
    cases.push(case(Call::CheckTable { table: path(rows) }, PATH, rows));
}

fn on_devices(cases: &mut Vec<Case>, rows: u32) {
    let pool = devices(rows, 1);
    let mut add = |call: Call, on: &str| cases.push(case(call, on, rows));
    add(verdict(&A, pool.clone()), A_TRUE);
    add(verdict(&B, pool.clone()), B_TRUE);
    add(verdict(&B, devices(rows, 2)), "rule B false at the last two devices");
    add(marks(&A, pool.clone()), A_TRUE);
    add(marks(&B, pool.clone()), B_TRUE);
    add(marks(&B, devices(rows, 2)), "rule B false at the last two devices");
    add(join_halves(&pool), "devices of three rows, two halves");
    add(join_last(&pool), "devices of three rows, the last one added");
    add(Call::ReadPool { file: POOL.text_of(&pool) }, THREE_ROWS);
    add(write_pool(pool.clone()), THREE_ROWS);
    add(Call::CheckFiles { rule_file: RULE.text_of(&A), pool_file: POOL.text_of(&pool) }, A_TRUE);
    add(Call::CheckFiles { rule_file: RULE.text_of(&B), pool_file: POOL.text_of(&pool) }, B_TRUE);
}

/// The first half of the devices and the second, joined.
fn join_halves(pool: &[u32]) -> Call {
    join_from(pool, last_device(pool) / 2 + 1)
}

/// The last device behind all others: what a collector does for each switch.
fn join_last(pool: &[u32]) -> Call {
    join_from(pool, last_device(pool))
}

fn last_device(pool: &[u32]) -> u32 {
    rows_of(pool).last().expect("a row").device
}

fn join_from(pool: &[u32], device: u32) -> Call {
    let rows = rows_of(pool);
    let (first, second) = rows.split_at(rows.partition_point(|row| row.device < device));
    Call::Join { first: words_of(first), second: words_of(second) }
}

fn on_one_device(cases: &mut Vec<Case>, rows: u32) {
    let table = one_device(rows);
    let mut add = |call: Call, on: &str| cases.push(case(call, on, rows));
    add(Call::CheckTable { table: table.clone() }, ONE_DEVICE);
    add(verdict(&C, table.clone()), C_TRUE);
    add(marks(&C, table.clone()), C_TRUE);
    for (rule, on) in [(&A[..], "rule A, one device"), (&B, "rule B, one device"), (&C, C_TRUE)] {
        parts(cases, rule, &table, on);
    }
}

/// Quantifiers over roots around one another, on one device.
fn on_roots(cases: &mut Vec<Case>, rows: u32) {
    let table = roots(rows, 1);
    for (rule, on) in [(deep(rows), DEEP), (late(rows), LATE), (early(), EARLY)] {
        cases.push(case(verdict(&rule, table.clone()), on, rows));
        cases.push(case(marks(&rule, table.clone()), on, rows));
        parts(cases, &rule, &table, on);
    }
}

fn parts(cases: &mut Vec<Case>, rule: &[u32], table: &[u32], on: &str) {
    for mode in 1..=3 {
        let call = Call::Part { rule: rule.to_vec(), table: table.to_vec(), mode };
        cases.push(case(call, on, (table.len() / ROW_WORDS) as u32));
    }
}
