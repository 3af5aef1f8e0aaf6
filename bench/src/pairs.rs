//! Rules that compare rows with rows: their verdicts and marks beside plain loops in C, and their parts.

use gabzeril_tests::answer::Answer;
use gabzeril_tests::checker::ROW_WORDS;

use crate::asked::yes_or_no;
use crate::calls::{Call, Outputs, LIBRARY};
use crate::cases::{case, label, Case};
use crate::inputs::devices;
use crate::instructions::{shown, Counts};
use crate::loops::{self, Loops};
use crate::pair_inputs::{
    addresses, at_most_servers, breadth_first, list, routes, Below, DEVICES_SHARE, ENTRIES_OVERLAP,
    INTERFACES_SHARE, NEXT_HOPS,
};

const FIVE_DEVICES: &str = "no two interfaces of a device share an address, 5 devices of 50 interfaces";
const ONE_OF_FIVE: &str = "no two interfaces of a device share an address, one device of 50 interfaces";
const LARGE_DEVICE: &str = "no two interfaces of a device share an address, one device of 509 interfaces";
const BREADTH_FIRST: &str =
    "no two interfaces of a device share an address, one device of 509 interfaces, breadth first";
const DEVICES: &str = "no two devices share an address, 5 devices of 101 interfaces";
const ONE_OF_DEVICES: &str = "no two devices share an address, one device of 101 interfaces";
const ENTRIES: &str = "no two entries of a list overlap, one list of 340 entries";
const HOPS: &str = "each next hop lies in an interface's range, 200 interfaces and 210 routes";
const TWO_SERVERS: &str = "at most 2 servers, devices of three rows";
const FOUR_SERVERS: &str = "at most 4 servers, devices of three rows";

fn rule_and_pool(on: &str) -> (Vec<u32>, Vec<u32>) {
    let in_device = |pool: Vec<u32>| (INTERFACES_SHARE.concat(), pool);
    match on {
        FIVE_DEVICES => in_device(addresses(5, 50, Below::AddressAndTwoMore)),
        ONE_OF_FIVE => in_device(addresses(1, 50, Below::AddressAndTwoMore)),
        LARGE_DEVICE => in_device(addresses(1, 509, Below::Address)),
        BREADTH_FIRST => in_device(breadth_first(&addresses(1, 509, Below::Address))),
        DEVICES => (DEVICES_SHARE.concat(), addresses(5, 101, Below::Address)),
        ONE_OF_DEVICES => (DEVICES_SHARE.concat(), addresses(1, 101, Below::Address)),
        ENTRIES => (ENTRIES_OVERLAP.concat(), list(340)),
        HOPS => (NEXT_HOPS.concat(), routes(200, 210)),
        TWO_SERVERS => (at_most_servers(2), devices(1_020, 1)),
        FOUR_SERVERS => (at_most_servers(4), devices(1_020, 1)),
        _ => unreachable!("no rule and pool: {on}"),
    }
}

/// The loops beside the library's call, verdict or marks as they are, and the most instructions that are asked for:
/// none where the figure is only to be reported.
const BESIDE_LOOPS: [(&str, Loops, Option<u64>); 9] = [
    (FIVE_DEVICES, loops::INTERFACES_SHARE, Some(18_000_000)),
    (LARGE_DEVICE, loops::INTERFACES_SHARE, Some(180_000_000)),
    (LARGE_DEVICE, loops::MARK_INTERFACES_SHARE, Some(450_000_000)),
    (BREADTH_FIRST, loops::INTERFACES_SHARE, None),
    (DEVICES, loops::DEVICES_SHARE, Some(175_000_000)),
    (ENTRIES, loops::ENTRIES_OVERLAP, Some(200_000_000)),
    (HOPS, loops::NEXT_HOPS, Some(40_000_000)),
    (TWO_SERVERS, loops::MARK_TWO_SERVERS, Some(8_000_000)),
    (FOUR_SERVERS, loops::MARK_FOUR_SERVERS, Some(20_000_000)),
];

/// A device of each pool, alone. Its part is measured by its verdict.
const ALONE: [&str; 5] = [ONE_OF_FIVE, LARGE_DEVICE, ONE_OF_DEVICES, ENTRIES, HOPS];
const MOST_OF_PART: f64 = 1.5;

/// The checker walks all rows for each pair. Here it takes more than a second, and for the servers minutes or more.
const LONG: [(&str, &str); 4] = [
    ("marks", LARGE_DEVICE),
    ("part, mode 3", LARGE_DEVICE),
    ("marks", TWO_SERVERS),
    ("marks", FOUR_SERVERS),
];

pub fn cases() -> Vec<Case> {
    let mut cases = vec![];
    for (on, loops, _) in BESIDE_LOOPS {
        cases.extend(library_and_loops(on, loops));
    }
    for on in ALONE {
        let (rule, table) = rule_and_pool(on);
        // Where a device is all of its pool, the verdict is there already.
        if !BESIDE_LOOPS.iter().any(|&(other, ..)| other == on) {
            cases.push(case_on(on, Call::Verdict { rule: rule.clone(), pool: table.clone() }, &table));
        }
        cases.push(case_on(on, Call::Part { rule, table: table.clone(), mode: 3 }, &table));
    }
    cases
}

/// Those whose label has one of these texts; all of them without texts.
pub fn cases_with(texts: &[&str]) -> Vec<Case> {
    let mut cases = cases();
    cases.retain(|case| texts.is_empty() || texts.iter().any(|text| case.label().contains(text)));
    cases
}

fn library_and_loops(on: &str, loops: Loops) -> [Case; 2] {
    let (rule, pool) = rule_and_pool(on);
    let call = match loops {
        Loops::Verdict(_) => Call::Verdict { rule, pool: pool.clone() },
        Loops::Marks(_) => Call::Marks { rule, pool: pool.clone() },
    };
    [case_on(on, call, &pool), case_on(on, Call::Loops { loops, pool: pool.clone() }, &pool)]
}

fn case_on(on: &str, call: Call, pool: &[u32]) -> Case {
    let long = LONG.contains(&(&call.name(), on)) || matches!(call, Call::Loops { .. });
    Case { long, ..case(call, on, (pool.len() / ROW_WORDS) as u32) }
}

pub fn print(counts: &Counts, before: &Counts) {
    println!("## Rules that compare rows with rows\n");
    println!("| call | rule, pool | rows | asked: at most | before | measured | met | loops in C | library / loops |");
    println!("|-|-|-:|-:|-:|-:|-|-:|-:|");
    for (on, loops, most) in BESIDE_LOOPS {
        let [library, loops] = library_and_loops(on, loops);
        assert!(both_true(&library.call, &loops.call), "library and loops differ: {}", library.label());
        print_beside_loops(&library, &loops, most, counts, before);
    }
    for on in ALONE {
        print_part(on, counts, before);
    }
}

/// Whether the library and the loops find the rule true, and mark the same rows.
fn both_true(library: &Call, loops: &Call) -> bool {
    let [ours, theirs] = [library, loops].map(|call| {
        let mut outputs = Outputs::of(call);
        (call.make(&LIBRARY, &mut outputs), outputs)
    });
    ours.0 == Answer::Done(1) && ours == theirs
}

fn print_beside_loops(library: &Case, loops: &Case, most: Option<u64>, counts: &Counts, before: &Counts) {
    let Case { call, on, rows, .. } = library;
    let [count, of_loops] = [library, loops].map(|case| counts.of(&case.label()));
    let asked = if most.is_some() { shown(most) } else { "report".into() };
    let met = most.zip(count).map_or("", |(most, count)| yes_or_no(count <= most));
    let ratio = ratio(count, of_loops).map_or("".into(), |ratio| format!("{ratio:.1}"));
    println!(
        "| {} | {on} | {rows} | {asked} | {} | {} | {met} | {} | {ratio} |",
        call.name(),
        shown(before.of(&library.label())),
        shown(count),
        shown(of_loops)
    );
}

fn ratio(count: Option<u64>, by: Option<u64>) -> Option<f64> {
    count.zip(by).map(|(count, by)| count as f64 / by as f64)
}

/// The part of a device beside the verdict on the device alone.
fn print_part(on: &str, counts: &Counts, before: &Counts) {
    let rows = (rule_and_pool(on).1.len() / ROW_WORDS) as u32;
    let [part, verdict] = ["part, mode 3", "verdict"].map(|call| label(call, on, rows));
    let (count, by) = (counts.of(&part), counts.of(&verdict));
    let ratio = ratio(count, by);
    let times = ratio.map_or("".into(), |ratio| format!(", {ratio:.2} times {}", shown(by)));
    let met = ratio.map_or("", |ratio| yes_or_no(ratio <= MOST_OF_PART));
    println!(
        "| part, mode 3 | {on}: over its verdict | {rows} | {MOST_OF_PART} times | {} | {}{times} | {met} | | |",
        shown(before.of(&part)),
        shown(count)
    );
}
