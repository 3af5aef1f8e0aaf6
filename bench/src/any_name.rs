//! Quantifiers over any name beside quantifiers with a name.

use gabzeril_tests::checker::{words_of, ANY_NAME, ENTRY_WORDS, ROW_WORDS};

use crate::calls::Call;
use crate::cases::{case, label, Case, B_TRUE};
use crate::inputs::{devices, root, under, B};
use crate::instructions::{shown, Counts};

/// The rows under an interface, and the first of their names.
const BELOW: u32 = 10;
const FIRST_NAME: u32 = 11;
/// A device: its root, an interface and the rows under it.
const DEVICE_ROWS: u32 = 2 + BELOW;

const TEN_NAMES: &str = "any name, ten names under an interface";
const EACH_NAME: &str = "each of ten names under an interface";
const SAME_ROWS: &str = "any name, one name under an interface";
const ONE_NAME: &str = "one name under an interface";
const ANY_ROOT: &str = "rule B over roots of any name, devices of three rows";

/// Few devices, and as many as fit.
const ROWS: [u32; 2] = [252, 1_020];

/// Devices with an interface each, and rows under it that are not 0: of as many names as rows, or of one.
pub fn blocks(rows: u32, ten_names: bool) -> Vec<u32> {
    let mut pool = vec![];
    for device in 1..=rows / DEVICE_ROWS {
        let device = root(device, 1, 1, 1_000 + device);
        let interface = under(&device, 2, 3, 1);
        pool.extend([device, interface]);
        let name = |i| FIRST_NAME + if ten_names { i } else { 0 };
        pool.extend((0..BELOW).map(|i| under(&interface, 3 + i, name(i), 1 + i)));
    }
    words_of(&pool)
}

/// Nothing with one of these names under an interface of a device is 0.
fn nothing_zero(names: &[u32]) -> Vec<u32> {
    let mut rule = vec![5, 1, 0, 1, 5, 2, 1, 3];
    for (i, name) in names.iter().enumerate() {
        let mut entry = (rule.len() / ENTRY_WORDS) as u32;
        if i + 1 < names.len() {
            rule.extend([2, entry + 1, entry + 4, 0]);
            entry += 1;
        }
        rule.extend([5, entry + 1, 2, *name, 1, entry + 2, 0, 0, 7, 2, 1, 0]);
    }
    rule
}

/// Rule B with any name in its quantifiers over roots.
fn b_over_any_root() -> Vec<u32> {
    let mut rule = B.to_vec();
    for entry in rule.chunks_exact_mut(ENTRY_WORDS).filter(|entry| entry[0] == 5 && entry[2] == 0) {
        entry[3] = ANY_NAME;
    }
    rule
}

pub fn add_cases(cases: &mut Vec<Case>) {
    let names: Vec<u32> = (FIRST_NAME..FIRST_NAME + BELOW).collect();
    for rows in ROWS {
        let (ten, one) = (blocks(rows, true), blocks(rows, false));
        add(cases, nothing_zero(&[ANY_NAME]), &ten, TEN_NAMES);
        add(cases, nothing_zero(&names), &ten, EACH_NAME);
        add(cases, nothing_zero(&[ANY_NAME]), &one, SAME_ROWS);
        add(cases, nothing_zero(&[FIRST_NAME]), &one, ONE_NAME);
    }
    let pool = devices(1_020, 1);
    cases.push(case(Call::Verdict { rule: b_over_any_root(), pool: pool.clone() }, ANY_ROOT, 1_020));
    cases.push(case(Call::Marks { rule: b_over_any_root(), pool }, ANY_ROOT, 1_020));
}

/// Verdict and marks on the pool, and the parts of its first device.
fn add(cases: &mut Vec<Case>, rule: Vec<u32>, pool: &[u32], on: &str) {
    let rows = (pool.len() / ROW_WORDS) as u32;
    let (first, pool) = (pool[..DEVICE_ROWS as usize * ROW_WORDS].to_vec(), pool.to_vec());
    cases.push(case(Call::Verdict { rule: rule.clone(), pool: pool.clone() }, on, rows));
    cases.push(case(Call::Marks { rule: rule.clone(), pool }, on, rows));
    if rows == ROWS[0] {
        for mode in [2, 3] {
            let call = Call::Part { rule: rule.clone(), table: first.clone(), mode };
            cases.push(case(call, on, DEVICE_ROWS));
        }
    }
}

/// A quantifier over any name costs what one with a name costs on the same rows, and by the rows that it ranges
/// over: those of the larger pool are 4.05 times as many.
pub fn print_asked(counts: &Counts) {
    let of = |call: &str, on: &str, rows: u32| counts.of(&label(call, on, rows));
    for call in ["verdict", "marks"] {
        for rows in ROWS {
            print_beside_names(call, &format!("{rows} rows"), |on| of(call, on, rows));
        }
        let what = format!("{TEN_NAMES}, {} rows: over {} rows", ROWS[1], ROWS[0]);
        let [few, many] = ROWS.map(|rows| of(call, TEN_NAMES, rows));
        print_ratio(call, &what, Some(4.1), many, few);
        let [any, b] = [ANY_ROOT, B_TRUE].map(|on| of(call, on, 1_020));
        print_ratio(call, &format!("{ANY_ROOT}, 1020 rows: over rule B"), Some(1.03), any, b);
    }
    for call in ["part, mode 2", "part, mode 3"] {
        print_beside_names(call, "a device", |on| of(call, on, DEVICE_ROWS));
    }
}

fn print_beside_names(call: &str, table: &str, of: impl Fn(&str) -> Option<u64>) {
    let what = format!("{SAME_ROWS}, {table}: over that name");
    print_ratio(call, &what, Some(1.03), of(SAME_ROWS), of(ONE_NAME));
    let what = format!("{TEN_NAMES}, {table}: over a quantifier for each");
    print_ratio(call, &what, None, of(TEN_NAMES), of(EACH_NAME));
}

pub fn print_ratio(call: &str, what: &str, most: Option<f64>, any: Option<u64>, other: Option<u64>) {
    let asked = most.map_or("report".into(), |most| format!("{most} times"));
    let Some((any, other)) = any.zip(other) else {
        println!("| {call} | {what} | | {asked} | | |  |");
        return;
    };
    let ratio = any as f64 / other as f64;
    let met = most.map_or("", |most| if ratio <= most { "yes" } else { "no" });
    let [any, other] = [any, other].map(|count| shown(Some(count)));
    println!("| {call} | {what} | | {asked} | | {any}, {ratio:.2} times {other} | {met} |");
}
