//! Rules and pools of the benchmark.

use gabzeril_tests::checker::{
    rows_of, words_of, Row, ENTRY_WORDS, LEAST_VALUE, MOST_NAME, MOST_NESTED, MOST_VALUE,
};
use gabzeril_tests::generate::{ats_of_hash, library_hash as hash, twin_hash, Set, STEPS};
use gabzeril_tests::largest;

/// Rule A of the contract: each device is client or server.
pub const A: [u32; 24] = [5, 1, 0, 1, 3, 2, 4, 0, 6, 3, 1, 2, 7, 1, 1, 1, 6, 5, 1, 2, 7, 1, 1, 2];

/// Rule B of the contract: at most one server.
pub const B: [u32; 36] = [
    5, 1, 0, 1, 5, 2, 0, 1, 4, 3, 8, 0, 2, 4, 6, 0, 6, 5, 1, 2, 7, 2, 1, 2, 6, 7, 2, 2, 7, 2, 1, 2, 7, 0, 0,
    1,
];

/// Two child levels: every interface of every device has an address, all of whose leaves are below a limit.
pub const C: [u32; 20] = [5, 1, 0, 1, 5, 2, 1, 3, 6, 3, 2, 4, 5, 4, 3, 5, 8, 3, 1, 1_000_000];

const CLIENT: u32 = 1;
pub const SERVER: u32 = 2;

/// Devices of three rows as the contract's D1; the first has up to two interfaces more, so that the rows add
/// up. The last `servers` of them are servers.
pub fn devices(rows: u32, servers: u32) -> Vec<u32> {
    let count = rows / 3;
    let mut pool = vec![];
    for device in 1..=count {
        let mode = if device > count - servers { SERVER } else { CLIENT };
        let root = root(device, 1, 1, 1_000 + device);
        pool.extend([root, under(&root, 2, 2, mode)]);
        let interfaces = if device == 1 { 1 + rows % 3 } else { 1 };
        pool.extend((0..interfaces).map(|i| under(&root, 3 + i, 3, 100 + i)));
    }
    words_of(&pool)
}

pub fn root(device: u32, at: u32, name: u32, value: u32) -> Row {
    Row { device, at, up: 0, deep: 0, name, value }
}

/// A row of the same device under this one.
pub fn under(parent: &Row, at: u32, name: u32, value: u32) -> Row {
    Row { device: parent.device, at, up: parent.at, deep: parent.deep + 1, name, value }
}

/// The rows of `devices(rows, 1)` with values of ten digits, close to the largest.
pub fn values_of_ten_digits(rows: u32) -> Vec<u32> {
    with_values_from(2_147_480_000, rows)
}

/// The same from the least on: ten digits and a sign.
pub fn values_below_zero(rows: u32) -> Vec<u32> {
    with_values_from(LEAST_VALUE, rows)
}

fn with_values_from(first: u32, rows: u32) -> Vec<u32> {
    let mut table = rows_of(&devices(rows, 1));
    for (value, row) in (first..).zip(&mut table) {
        row.value = value;
    }
    words_of(&table)
}

/// The longest rule with the largest constant in the place of the least, which has a sign.
pub fn longest_without_signs() -> Vec<u32> {
    let mut rule = largest::longest_rule();
    rule.iter_mut().filter(|word| **word == LEAST_VALUE).for_each(|constant| *constant = MOST_VALUE);
    rule
}

/// The rows of `devices(rows, 1)` with nines as every value. Siblings have names of their own, as none may be
/// equal.
pub fn values_of_nines(rows: u32) -> Vec<u32> {
    let mut table = rows_of(&devices(rows, 1));
    for row in &mut table {
        row.name = if row.is_root() { row.device } else { row.at };
        row.value = 999_999_999;
    }
    words_of(&table)
}

/// One device: a root, its mode, interfaces, addresses under them and leaves under those, each interface
/// followed by what hangs under it. With 1,021 rows: 300 interfaces, 360 addresses, 359 leaves.
pub fn one_device(rows: u32) -> Vec<u32> {
    let interfaces = (rows - 2) * 300 / 1_019;
    let addresses = (rows - 2 - interfaces).div_ceil(2);
    let leaves = rows - 2 - interfaces - addresses;
    let root = root(1, 1, 1, 11);
    let mut table = vec![root, under(&root, 2, 2, SERVER)];
    let mut address = 0;
    let add = |table: &mut Vec<Row>, parent: &Row, name: u32| {
        let at = table.len() as u32 + 1;
        let row = under(parent, at, name, 1_000 + at);
        table.push(row);
        row
    };
    for interface in 0..interfaces {
        let row = add(&mut table, &root, 3);
        // The addresses are spread evenly over the interfaces.
        while address < (interface + 1) * addresses / interfaces {
            let row = add(&mut table, &row, 4);
            if address < leaves {
                add(&mut table, &row, 5);
            }
            address += 1;
        }
    }
    words_of(&table)
}

/// One device in which each row hangs under the one before.
pub fn path(rows: u32) -> Vec<u32> {
    let next = |row: &Row| Some(under(row, row.at + 1, 1, row.value + 1));
    let rows: Vec<Row> = std::iter::successors(Some(root(1, 1, 1, 0)), next).take(rows as usize).collect();
    words_of(&rows)
}

/// Refused with 26 at the last row, which is one deeper than it should be.
pub fn with_wrong_depth(table: &[u32]) -> Vec<u32> {
    with_last_row(table, |row| row.deep += 1)
}

/// Refused with 26 at the first child: each depth but a root's is wrong, since it is not one more than that
/// of the parent, but two.
pub fn with_wrong_depths(table: &[u32]) -> Vec<u32> {
    let mut rows = rows_of(table);
    rows.iter_mut().for_each(|row| row.deep *= 2);
    words_of(&rows)
}

/// Refused with 11 at the last row, which names itself as its parent.
pub fn with_no_parent(table: &[u32]) -> Vec<u32> {
    with_last_row(table, |row| row.up = row.at)
}

fn with_last_row(table: &[u32], change: impl FnOnce(&mut Row)) -> Vec<u32> {
    let mut rows = rows_of(table);
    change(rows.last_mut().expect("a row"));
    words_of(&rows)
}

/// The rows of `devices(rows, 1)` in one device.
pub fn gathered(rows: u32) -> Vec<u32> {
    let mut table = rows_of(&devices(rows, 1));
    let mut root = 0;
    for (at, row) in (1..).zip(&mut table) {
        if row.is_root() {
            root = at;
        } else {
            row.up = root;
        }
        (row.device, row.at) = (1, at);
    }
    words_of(&table)
}

/// Roots of one device with distinct values: 0, `step`, and so on.
pub fn roots(rows: u32, step: u32) -> Vec<u32> {
    roots_of((0..rows).map(|row| row * step))
}

/// As many roots with values around zero.
pub fn roots_across_zero(rows: u32) -> Vec<u32> {
    roots_of((0..rows).map(|row| row.wrapping_sub(rows / 2)))
}

/// Roots of one device whose hashes in check 12 are all equal: the library links them in one chain.
pub fn roots_in_one_chain(rows: u32) -> Vec<u32> {
    let all = (0..=MOST_VALUE).filter(|&value| hash(0, 0, 1, value) == hash(0, 0, 1, 0));
    roots_of(all.take(rows as usize))
}

/// The same with as few values as there can be: the names differ.
pub fn names_in_one_chain(rows: u32) -> Vec<u32> {
    let pairs = (0..).flat_map(|value| (1..=MOST_NAME).map(move |name| (name, value)));
    let all = pairs.filter(|&(name, value)| hash(0, 0, name, value) == hash(0, 0, 1, 0));
    let rows: Vec<Row> =
        (1..).zip(all.take(rows as usize)).map(|(at, (name, value))| root(1, at, name, value)).collect();
    words_of(&rows)
}

/// Roots with a child each; the children have one name and value, and equal hashes in check 12.
pub fn children_in_one_chain(rows: u32) -> Vec<u32> {
    let mut table = vec![];
    for device in 1.. {
        let mut free = 1;
        for at in (1..MOST_NAME).filter(|&at| hash(device, at, 2, 7) == 0) {
            if at < free {
                continue;
            }
            if table.len() == rows as usize {
                return words_of(&table);
            }
            let root = root(device, at, 1, table.len() as u32);
            table.extend([root, under(&root, at + 1, 2, 7)]);
            free = at + 2;
        }
    }
    words_of(&table)
}

/// Devices of a root and rows under it, all of whose places have equal hashes in checks 11 and 26. Where a
/// device has rows enough, the parent is the nearest row that the library does not find by its steps: it
/// compares all before that one.
pub fn places_in_one_chain(rows: u32) -> Vec<u32> {
    let mut table: Vec<Row> = vec![];
    for device in 1.. {
        let start = table.len();
        for at in ats_of_hash(device, 0) {
            if table.len() == rows as usize {
                return words_of(&table);
            }
            let (own, value) = (&table[start..], table.len() as u32);
            let parent = own.get(own.len().saturating_sub(STEPS + 1));
            table.push(parent.map_or(root(device, at, 1, value), |parent| under(parent, at, 2, value)));
        }
    }
    words_of(&table)
}

/// The same with equal hashes in check 12 too.
pub fn all_in_one_chain(rows: u32) -> Vec<u32> {
    let mut table = rows_of(&places_in_one_chain(rows));
    for row in &mut table {
        // Far enough apart that none is equal to that of a row before.
        let with_value = |value| Row { value, ..*row };
        *row = (row.value * 4_096..).map(with_value).find(|row| twin_hash(row) == 0).expect("a value");
    }
    words_of(&table)
}

fn roots_of(values: impl Iterator<Item = u32>) -> Vec<u32> {
    let rows: Vec<Row> = (1..).zip(values).map(|(at, value)| root(1, at, 1, value)).collect();
    words_of(&rows)
}

/// The variable of the innermost quantifier where as many as may be stand around one another.
const INNERMOST: u32 = MOST_NESTED as u32 - 1;

/// As many quantifiers over roots around one another as may be; each decides at the last row of
/// `roots(rows, 1)`.
pub fn deep(rows: u32) -> Vec<u32> {
    let last = rows - 1;
    let mut rule = vec![];
    for variable in 0..INNERMOST {
        let entry = next_entry(&rule);
        rule.extend([6, entry + 1, 0, 1]);
        rule.extend([2, entry + 2, entry + 3, 0]);
        rule.extend([7, variable, 1, last]);
    }
    let entry = next_entry(&rule);
    rule.extend([6, entry + 1, 0, 1]);
    rule.extend([7, INNERMOST, 1, last]);
    rule
}

/// As many of both kinds likewise; none decides before the innermost variable is bound, to the last row.
pub fn late(rows: u32) -> Vec<u32> {
    let last = rows - 1;
    let mut rule = vec![];
    // Every, not some, not every, and so on, down to a some: what decides the innermost decides them all.
    for variable in 0..INNERMOST {
        let (entry, kind) = (next_entry(&rule), 6 - (INNERMOST - variable) % 2);
        rule.extend([kind, entry + 1, 0, 1]);
        rule.extend([1, entry + 2, 0, 0]);
    }
    let entry = next_entry(&rule);
    rule.extend([6, entry + 1, 0, 1]);
    rule.extend([2, entry + 2, entry + 3, 0]);
    rule.extend([7, INNERMOST, 1, last]);
    // And some other variable is below it.
    for variable in 0..INNERMOST - 1 {
        let entry = next_entry(&rule);
        rule.extend([3, entry + 1, entry + 2, 0]);
        rule.extend([8, variable, 0, INNERMOST]);
    }
    rule.extend([8, INNERMOST - 1, 0, INNERMOST]);
    rule
}

/// The number of the entry that is added next.
pub fn next_entry(rule: &[u32]) -> u32 {
    (rule.len() / ENTRY_WORDS) as u32
}

/// Of every two roots the first is less than the second, or the second at most the first. Each pair is compared,
/// once or twice.
pub const ORDER: [u32; 20] = [5, 1, 0, 1, 5, 2, 0, 1, 3, 3, 4, 0, 8, 0, 0, 1, 9, 1, 0, 0];

/// Some x0, and for every x1: x0 is at most a value that no root exceeds. The inner quantifier is settled whatever row x1 has.
pub fn early() -> Vec<u32> {
    vec![6, 1, 0, 1, 5, 2, 0, 1, 9, 0, 1, MOST_VALUE]
}

/// A rule book of 20: eight rules as A, six as B, six as C, with other names and constants. On `devices` most
/// are true, and go through all of it; those of addresses are settled by the first interface, which has none.
pub fn rule_book() -> Set {
    let mut rules = vec![];
    // Each device has one of two modes; or some interface with one of two numbers.
    for (name, one, other) in [(2, 1, 2), (2, 2, 1), (2, 1, 3), (3, 100, 101), (3, 101, 100), (3, 1_003, 100)]
    {
        rules.push(one_of_two(name, one, other));
    }
    // As wide, of interfaces that no device has; and of a mode that not all have.
    rules.extend([one_of_two(3, 7, 8), one_of_two(2, 3, 4)]);
    // At most one device is server, is transparent, is off, has the interface 102, 103 or 104.
    for (name, value) in [(2, SERVER), (2, 3), (2, 4), (3, 102), (3, 103), (3, 104)] {
        rules.push(at_most_one(name, value));
    }
    for limit in [1_000_000, 100_000, 10_000, 5_000, 2_000, 1_500] {
        rules.push([&C[..C.len() - 1], &[limit]].concat());
    }
    Set::of(&rules)
}

/// Rule A with another name and other values.
fn one_of_two(name: u32, one: u32, other: u32) -> Vec<u32> {
    vec![5, 1, 0, 1, 3, 2, 4, 0, 6, 3, 1, name, 7, 1, 1, one, 6, 5, 1, name, 7, 1, 1, other]
}

/// Rule B with another name and value.
fn at_most_one(name: u32, value: u32) -> Vec<u32> {
    let mut rule = B.to_vec();
    for place in [4, 6] {
        rule[place * ENTRY_WORDS + 3] = name;
        rule[(place + 1) * ENTRY_WORDS + 3] = value;
    }
    rule
}

#[cfg(test)]
mod tests {
    use super::*;
    use gabzeril_tests::answer::Answer;
    use gabzeril_tests::checker::{check_rule, check_set, check_table, set_verdicts, value_of, verdict};
    use gabzeril_tests::generate::place_hash;

    #[test]
    fn all_are_accepted() {
        for rows in [64, 256, 512, 1_020, 1_021, 1_024] {
            let tables = [
                devices(rows, 1),
                values_of_ten_digits(rows),
                values_below_zero(rows),
                values_of_nines(rows),
                one_device(rows),
                gathered(rows),
                roots(rows, 1),
                roots(rows, 1_024),
                roots_across_zero(rows),
                roots_in_one_chain(rows),
                names_in_one_chain(rows),
                path(rows),
                places_in_one_chain(rows),
                all_in_one_chain(rows),
            ];
            for table in tables {
                assert_eq!(check_table(&table), Answer::Done(rows as usize));
            }
            for table in [devices(rows, 1), one_device(rows), path(rows), places_in_one_chain(rows)] {
                let last = rows as usize - 1;
                assert_eq!(check_table(&with_wrong_depth(&table)), Answer::refused(26, last));
                assert_eq!(check_table(&with_no_parent(&table)), Answer::refused(11, last));
            }
            let table = with_wrong_depths(&places_in_one_chain(rows));
            assert_eq!(check_table(&table), Answer::refused(26, 1));
            assert_eq!(check_rule(&deep(rows)), Answer::Done(3 * MOST_NESTED - 1));
            assert_eq!(check_rule(&late(rows)), Answer::Done(4 * MOST_NESTED - 2));
        }
        for rule in [&A[..], &B, &C, &early(), &ORDER, &longest_without_signs()] {
            assert_eq!(check_rule(rule), Answer::Done(rule.len() / 4));
        }
    }

    #[test]
    fn digits_are_as_described() {
        let all = |table: Vec<u32>, test: fn(u32) -> bool| rows_of(&table).iter().all(|row| test(row.value));
        assert!(all(values_of_ten_digits(1_024), |value| (1_000_000_000..=MOST_VALUE).contains(&value)));
        assert!(all(values_below_zero(1_024), |value| value_of(value) <= -1_000_000_000));
        assert!(all(values_of_nines(1_024), |value| value == 999_999_999));
    }

    #[test]
    fn chains_are_as_described() {
        let table = rows_of(&all_in_one_chain(1_024));
        assert!(table.iter().all(|row| place_hash(row.device, row.at) == 0 && twin_hash(row) == 0));
        let wrong = rows_of(&with_wrong_depths(&places_in_one_chain(1_024)));
        let parent = |row: &Row| wrong.iter().find(|parent| parent.is_parent_of(row));
        assert!(wrong.iter().all(|row| parent(row).is_none_or(|parent| row.deep == parent.deep + 2)));
    }

    #[test]
    fn verdicts_are_as_described() {
        assert_eq!(verdict(&A, &devices(64, 1)), Answer::Done(1));
        assert_eq!(verdict(&B, &devices(64, 1)), Answer::Done(1));
        assert_eq!(verdict(&B, &devices(64, 2)), Answer::Done(0));
        assert_eq!(verdict(&C, &one_device(64)), Answer::Done(1));
        assert_eq!(verdict(&deep(64), &roots(64, 1)), Answer::Done(1));
        assert_eq!(verdict(&late(64), &roots(64, 1)), Answer::Done(0));
        assert_eq!(verdict(&early(), &roots(64, 1)), Answer::Done(1));
        assert_eq!(verdict(&ORDER, &roots(64, 1)), Answer::Done(1));
        assert_eq!(verdict(&ORDER, &roots_across_zero(64)), Answer::Done(1));
    }

    #[test]
    fn the_rule_book_is_as_described() {
        let set = rule_book();
        assert_eq!(check_set(&set.rules, &set.counts), Answer::Done(20));
        assert_eq!((one_of_two(2, 1, 2), at_most_one(2, SERVER)), (A.to_vec(), B.to_vec()));
        let rules = set.each();
        assert!((1..20).all(|place| !rules[..place].contains(&rules[place])), "two are equal");
        let mut verdicts = [0; 20];
        assert_eq!(
            set_verdicts(&set.rules, &set.counts, &devices(1_020, 1), &mut verdicts),
            Answer::Done(20)
        );
        let true_of = |rules: usize| verdicts[..rules].iter().filter(|&&verdict| verdict == 1).count();
        assert_eq!([8, 14, 20].map(true_of), [5, 11, 11], "{verdicts:?}");
    }

    #[test]
    fn the_large_device_has_300_interfaces() {
        let table = one_device(1_021);
        let named = |name| rows_of(&table).iter().filter(|row| row.name == name).count();
        assert_eq!([3, 4, 5].map(named), [300, 360, 359]);
    }
}
