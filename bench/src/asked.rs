//! The figures that are asked for, beside those measured.

use crate::any_name;
use crate::archive;
use crate::cases::{
    label, A_TRUE, BOOK_ON_DEVICES, BOOK_ON_ONE_DEVICE, B_TRUE, C_TRUE, LONGEST_WITHOUT_SIGNS, ONE_DEVICE,
    ORDER_ON_ROOTS, THREE_ROWS,
};
use crate::fold;
use crate::instructions::{shown, Counts};
use crate::pairs;
use crate::templates;
use crate::trial;

/// A limit of the instructions of one case.
struct Limit {
    call: &'static str,
    on: &'static str,
    rows: u32,
    /// None where the figure is only to be reported.
    most: Option<u64>,
}

const fn limit(call: &'static str, on: &'static str, rows: u32, most: Option<u64>) -> Limit {
    Limit { call, on, rows, most }
}

const LIMITS: [Limit; 25] = [
    limit("check_table", THREE_ROWS, 1_020, Some(400_000)),
    limit("check_table", ONE_DEVICE, 1_021, Some(400_000)),
    limit("verdict", B_TRUE, 1_020, Some(2_000_000)),
    limit("verdict", A_TRUE, 1_020, Some(1_000_000)),
    limit("verdict", C_TRUE, 1_021, Some(1_000_000)),
    limit("marks", B_TRUE, 1_020, Some(150_000_000)),
    limit("marks", C_TRUE, 1_021, Some(2_000_000)),
    // Three percent more for a verdict, and ten for reading, than before values had signs.
    limit("verdict", ORDER_ON_ROOTS, 256, Some(19_970_628)),
    limit("read_pool", THREE_ROWS, 1_020, Some(891_005)),
    limit("read_rule", LONGEST_WITHOUT_SIGNS, 0, Some(106_285)),
    limit("part, mode 2", "rule A, one device", 1_021, None),
    limit("part, mode 3", "rule A, one device", 1_021, None),
    limit("part, mode 2", "rule B, one device", 1_021, None),
    limit("part, mode 3", "rule B, one device", 1_021, None),
    limit("part, mode 2", C_TRUE, 1_021, None),
    limit("part, mode 3", C_TRUE, 1_021, None),
    limit("verdict of each rule", BOOK_ON_DEVICES, 1_020, None),
    limit("part for each rule, mode 2", BOOK_ON_ONE_DEVICE, 300, None),
    limit("set_part, mode 2", BOOK_ON_ONE_DEVICE, 300, None),
    limit("part for each rule, mode 3", BOOK_ON_ONE_DEVICE, 300, None),
    limit("set_part, mode 3", BOOK_ON_ONE_DEVICE, 300, None),
    limit("part for each rule, mode 2", BOOK_ON_ONE_DEVICE, 1_020, None),
    limit("set_part, mode 2", BOOK_ON_ONE_DEVICE, 1_020, None),
    limit("part for each rule, mode 3", BOOK_ON_ONE_DEVICE, 1_020, None),
    limit("set_part, mode 3", BOOK_ON_ONE_DEVICE, 1_020, None),
];

pub fn print(counts: &Counts, before: &Counts) {
    println!("## Asked and measured, in instructions\n");
    println!("| call | on | rows | asked: at most | before | measured | met |");
    println!("|-|-|-:|-:|-:|-:|-|");
    for Limit { call, on, rows, most } in LIMITS {
        let label = label(call, on, rows);
        let count = counts.of(&label);
        let asked = if most.is_some() { shown(most) } else { "report".into() };
        let met = most.and_then(|most| Some(yes_or_no(count? <= most))).unwrap_or("");
        println!(
            "| {call} | {on} | {rows} | {asked} | {} | {} | {met} |",
            shown(before.of(&label)),
            shown(count)
        );
    }
    print_growth(counts, before);
    print_set_verdicts(counts, before);
    trial::print_asked(counts);
    any_name::print_asked(counts);
    templates::print_asked(counts);
    archive::print_asked(counts);
    println!();
    pairs::print(counts, before);
    println!();
    fold::print(counts);
}

pub fn yes_or_no(met: bool) -> &'static str {
    if met {
        "yes"
    } else {
        "no"
    }
}

/// The table checks at 1,024 rows over those at 512.
fn print_growth(counts: &Counts, before: &Counts) {
    let growth = |counts: &Counts| {
        let of = |rows: u32| counts.of(&label("check_table", THREE_ROWS, rows));
        Some(of(1_024)? as f64 / of(512)? as f64)
    };
    let [earlier, now] = [before, counts]
        .map(|counts| growth(counts).map_or("".into(), |growth| format!("{growth:.2} times")));
    let met = growth(counts).map_or("", |growth| yes_or_no(growth <= 2.5));
    println!("| check_table | {THREE_ROWS}, 1,024 rows over 512 | | 2.5 times | {earlier} | {now} | {met} |");
}

/// The verdicts of a set check the table once: they may cost those of its 20 rules less 19 table checks, and
/// five percent more.
fn print_set_verdicts(counts: &Counts, before: &Counts) {
    let of = |call: &str, on: &str| counts.of(&label(call, on, 1_020));
    let most = || {
        let checks = 19 * of("check_table", THREE_ROWS)?;
        Some(of("verdict of each rule", BOOK_ON_DEVICES)?.saturating_sub(checks) * 105 / 100)
    };
    let count = of("set_verdicts", BOOK_ON_DEVICES);
    let met = most().and_then(|most| Some(yes_or_no(count? <= most))).unwrap_or("");
    let earlier = before.of(&label("set_verdicts", BOOK_ON_DEVICES, 1_020));
    println!(
        "| set_verdicts | {BOOK_ON_DEVICES}: its verdicts less 19 table checks, and 5 % | 1020 | {} | {} | {} | {met} |",
        shown(most()),
        shown(earlier),
        shown(count)
    );
}
