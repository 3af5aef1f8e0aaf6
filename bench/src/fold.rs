//! Folding, beside the check of the same table and beside a loop in C that compares all pairs of rows.

use gabzeril_tests::answer::Answer;
use gabzeril_tests::checker::{rows_of, words_of, Row};
use gabzeril_tests::generate::{library_hash, place_hash, STEPS};

use crate::asked::yes_or_no;
use crate::calls::{Call, Outputs, LIBRARY};
use crate::cases::{case, label, Case, PATH};
use crate::inputs::{path, root, roots, roots_in_one_chain, under};
use crate::instructions::{shown, Counts};

/// Folding tests a table once, as its check does, finds equal siblings as its check does, and writes the rows left.
const MOST: f64 = 2.5;
const MOST_ROWS: u32 = 1_024;
const FEW_ROWS: u32 = 64;

/// The interfaces of a device of as many rows as there may be.
const INTERFACES: u32 = 50;
/// The length of the path that is listed again and again.
const PATH_ROWS: u32 = 32;

// Nothing to fold.
const BLOCKS: &str = "50 interfaces and rows under them";
const FEW_BLOCKS: &str = "3 interfaces and rows under them";
const SIBLINGS: &str = "siblings under one root";
const EQUAL_PATH: &str = "one path of equal rows";
const EQUAL_UNDER: &str = "equal rows, each under a parent of its own";
const MULTIPLES: &str = "roots, values multiples of 1,024";
const CHAIN: &str = "roots, all in one chain";
const CHAIN_UNDER: &str = "siblings under one root, all in one chain";
const PLACES: &str = "places in 17 chains, parents far back in them";
// Something to fold.
const BLOCKS_TWICE: &str = "25 interfaces and rows under them, entered twice";
const FEW_BLOCKS_TWICE: &str = "2 interfaces and rows under them, entered twice";
const ROWS_TWICE: &str = "25 interfaces and rows under them, each row twice";
const PATHS: &str = "a path of 32 rows, 32 times";
const ONE_ROW: &str = "equal roots";
const LAST_ALONE: &str = "siblings under one root, the last two equal";
const CHAIN_TWICE: &str = "siblings under one root, all in one chain, each twice";

/// Each table with its number of rows, and that of the rows left.
const TABLES: [(&str, u32, u32); 17] = [
    (BLOCKS, MOST_ROWS, MOST_ROWS),
    (SIBLINGS, MOST_ROWS, MOST_ROWS),
    (PATH, MOST_ROWS, MOST_ROWS),
    (EQUAL_PATH, MOST_ROWS, MOST_ROWS),
    (EQUAL_UNDER, MOST_ROWS - 1, MOST_ROWS - 1),
    (MULTIPLES, MOST_ROWS, MOST_ROWS),
    (CHAIN, MOST_ROWS, MOST_ROWS),
    (CHAIN_UNDER, MOST_ROWS, MOST_ROWS),
    (PLACES, MOST_ROWS, MOST_ROWS),
    (FEW_BLOCKS, FEW_ROWS, FEW_ROWS),
    (BLOCKS_TWICE, MOST_ROWS, MOST_ROWS / 2),
    (ROWS_TWICE, MOST_ROWS, MOST_ROWS / 2),
    (PATHS, MOST_ROWS, PATH_ROWS),
    (ONE_ROW, MOST_ROWS, 1),
    (LAST_ALONE, MOST_ROWS, MOST_ROWS - 1),
    (CHAIN_TWICE, MOST_ROWS - 1, MOST_ROWS / 2),
    (FEW_BLOCKS_TWICE, FEW_ROWS, FEW_ROWS / 2),
];

fn table_of(on: &str, rows: u32) -> Vec<u32> {
    match on {
        BLOCKS => blocks(rows, INTERFACES),
        FEW_BLOCKS => blocks(rows, INTERFACES * rows / MOST_ROWS),
        SIBLINGS => siblings(1..rows),
        PATH => path(rows),
        EQUAL_PATH => with_values(&path(rows), |_| 7),
        EQUAL_UNDER => equal_under(rows),
        MULTIPLES => roots(rows, 1_024),
        CHAIN => roots_in_one_chain(rows),
        CHAIN_UNDER => siblings(values_in_one_chain().take(rows as usize - 1)),
        PLACES => places_in_few_chains(rows),
        BLOCKS_TWICE => entered_twice(&blocks(rows / 2, INTERFACES / 2)),
        ROWS_TWICE => each_twice(&blocks(rows / 2, INTERFACES / 2)),
        FEW_BLOCKS_TWICE => entered_twice(&blocks(rows / 2, 2)),
        PATHS => paths(rows, PATH_ROWS),
        ONE_ROW => with_values(&roots(rows, 1), |_| 7),
        LAST_ALONE => siblings((1..rows).map(|value| value.min(rows - 2))),
        CHAIN_TWICE => siblings(values_in_one_chain().take(rows as usize / 2).flat_map(|value| [value; 2])),
        _ => unreachable!("no table: {on}"),
    }
}

/// A root, interfaces under it and rows under these, each interface followed by its own.
fn blocks(rows: u32, interfaces: u32) -> Vec<u32> {
    let mut table = vec![root(1, 1, 1, 11)];
    for interface in 0..interfaces {
        let row = under(&table[0], table.len() as u32 + 1, 3, 101 + interface);
        table.push(row);
        // The rows up to this interface's last are as many of all as the interfaces up to it.
        let end = 1 + (rows - 1) * (interface + 1) / interfaces;
        while (table.len() as u32) < end {
            let at = table.len() as u32 + 1;
            table.push(under(&row, at, 4 + at % 7, 1_000 + at));
        }
    }
    words_of(&table)
}

/// A root and rows with these values under it.
fn siblings(values: impl IntoIterator<Item = u32>) -> Vec<u32> {
    let root = root(1, 1, 1, 11);
    let rows = (2..).zip(values).map(|(at, value)| under(&root, at, 3, value));
    words_of(&[root].into_iter().chain(rows).collect::<Vec<Row>>())
}

/// The values of rows under 1/1 that have one hash with the library's formula.
fn values_in_one_chain() -> impl Iterator<Item = u32> {
    let hash = |value| library_hash(1, 1, 3, value);
    (0..).filter(move |&value| hash(value) == hash(0))
}

/// Rows whose places have few hashes with the library's formula: a device has about 64 of each. The parent is the nearest row
/// of the same hash that the library does not find by its steps.
fn places_in_few_chains(rows: u32) -> Vec<u32> {
    const CHAINS: usize = 17;
    let mut chains: [Vec<Row>; CHAINS] = Default::default();
    let mut table = vec![];
    for at in 1.. {
        let hash = place_hash(1, at) as usize;
        if table.len() == rows as usize {
            break;
        }
        if hash < CHAINS {
            let own = &mut chains[hash];
            let parent = own.get(own.len().saturating_sub(STEPS + 1));
            let row = parent.map_or(root(1, at, 1, at), |parent| under(parent, at, 2, at));
            own.push(row);
            table.push(row);
        }
    }
    words_of(&table)
}

/// A root, rows under it that differ, and under each of these a row: all of these have one name and value.
fn equal_under(rows: u32) -> Vec<u32> {
    let parents = (rows - 1) / 2;
    let mut table = rows_of(&siblings(0..parents));
    for parent in 1..=parents as usize {
        let at = table.len() as u32 + 1;
        table.push(under(&table[parent], at, 4, 7));
    }
    words_of(&table)
}

/// The same path again and again.
fn paths(rows: u32, length: u32) -> Vec<u32> {
    let mut table: Vec<Row> = vec![];
    for at in 1..=rows {
        let deep = (at - 1) % length;
        let row = if deep == 0 { root(1, at, 1, 0) } else { under(&table[at as usize - 2], at, 1, deep) };
        table.push(row);
    }
    words_of(&table)
}

/// All rows once more behind the last.
fn entered_twice(table: &[u32]) -> Vec<u32> {
    let rows = rows_of(table);
    let last = rows.last().expect("a row").at;
    let again = rows.iter().map(|row| {
        let up = if row.is_root() { 0 } else { row.up + last };
        Row { at: row.at + last, up, ..*row }
    });
    words_of(&rows.iter().copied().chain(again).collect::<Vec<Row>>())
}

/// Each row twice; what hangs under it hangs under the second.
fn each_twice(table: &[u32]) -> Vec<u32> {
    let twice = |row: &Row| [2 * row.at - 1, 2 * row.at].map(|at| Row { at, up: 2 * row.up, ..*row });
    words_of(&rows_of(table).iter().flat_map(twice).collect::<Vec<Row>>())
}

fn with_values(table: &[u32], value: impl Fn(&Row) -> u32) -> Vec<u32> {
    let rows: Vec<Row> = rows_of(table).iter().map(|row| Row { value: value(row), ..*row }).collect();
    words_of(&rows)
}

/// The same rows with a value each, in one chain if they were: the check goes through all of them, where that of equal
/// siblings ends at the first that it finds.
fn with_own_values(on: &str, rows: u32) -> Vec<u32> {
    match on {
        CHAIN_TWICE => table_of(CHAIN_UNDER, rows),
        _ => with_values(&table_of(on, rows), |row| row.at),
    }
}

fn on_own_values(on: &str) -> String {
    format!("{on}, all with values of their own")
}

/// All tables, for the stack.
pub fn tables() -> Vec<Vec<u32>> {
    TABLES.iter().map(|&(on, rows, _)| table_of(on, rows)).collect()
}

/// The check of the table, folding it by the library and by a loop; where something folds, the check of the same rows with
/// values of their own.
pub fn cases() -> Vec<Case> {
    let mut cases = vec![];
    for (on, rows, left) in TABLES {
        let table = table_of(on, rows);
        cases.push(case(Call::CheckTable { table: table.clone() }, on, rows));
        if left < rows {
            let table = with_own_values(on, rows);
            cases.push(case(Call::CheckTable { table }, on_own_values(on), rows));
        }
        cases.push(case(Call::Fold { table: table.clone() }, on, rows));
        cases.push(Case { long: true, ..case(Call::FoldLoops { table }, on, rows) });
    }
    cases
}

pub fn print(counts: &Counts) {
    println!("## Folding\n");
    println!("| table | rows | left | check_table | fold | fold / check_table | asked: at most | met | check_table that ends with 12 | loop in C | fold / loop |");
    println!("|-|-:|-:|-:|-:|-:|-:|-|-:|-:|-:|");
    for (on, rows, left) in TABLES {
        assert!(loops_agree(on, rows, left), "library and loops differ: {on}");
        print_line(counts, on, rows, left);
    }
}

fn print_line(counts: &Counts, on: &str, rows: u32, left: u32) {
    let of = |call: &str, on: &str| counts.of(&label(call, on, rows));
    let (fold, same, loops) = (of("fold", on), of("check_table", on), of("loops in C, fold", on));
    let (check, refused) =
        if left < rows { (of("check_table", &on_own_values(on)), same) } else { (same, None) };
    let times = |by: Option<u64>| fold.zip(by).map(|(fold, by)| fold as f64 / by as f64);
    let two_digits = |times: Option<f64>| times.map_or("".into(), |times| format!("{times:.2}"));
    let most = (rows > FEW_ROWS).then_some(MOST);
    let asked = most.map_or("report".into(), |most| format!("{most} times"));
    let met = most.zip(times(check)).map_or("", |(most, times)| yes_or_no(times <= most));
    println!(
        "| {on} | {rows} | {left} | {} | {} | {} | {asked} | {met} | {} | {} | {} |",
        shown(check),
        shown(fold),
        two_digits(times(check)),
        shown(refused),
        shown(loops),
        two_digits(times(loops))
    );
}

/// Whether the library and the loop leave so many rows, and the same.
fn loops_agree(on: &str, rows: u32, left: u32) -> bool {
    let table = table_of(on, rows);
    let [ours, theirs] = [Call::Fold { table: table.clone() }, Call::FoldLoops { table }].map(|call| {
        let mut outputs = Outputs::of(&call);
        (call.make(&LIBRARY, &mut outputs), outputs)
    });
    ours.0 == Answer::Done(left as usize) && ours == theirs
}

#[cfg(test)]
mod tests {
    use super::*;
    use crate::loops;
    use gabzeril_tests::checker::{check_table, fold, ROW_WORDS};

    #[test]
    fn tables_are_as_described() {
        for (on, rows, left) in TABLES {
            let table = table_of(on, rows);
            assert_eq!(table.len(), rows as usize * ROW_WORDS, "{on}");
            assert_eq!(check_table(&table).number(), if left < rows { 12 } else { 0 }, "{on}");
            assert_eq!(check_table(&with_own_values(on, rows)), Answer::Done(rows as usize), "{on}");
            let [mut ours, mut theirs] = [vec![0; table.len()], vec![0; table.len()]];
            assert_eq!(fold(&table, &mut ours), Answer::Done(left as usize), "{on}");
            assert_eq!(loops::fold(&table, &mut theirs), Answer::Done(left as usize), "{on}");
            assert!(ours == theirs, "{on}");
        }
    }

    #[test]
    fn rows_entered_twice_fold_to_the_first() {
        let table = blocks(FEW_ROWS, 3);
        let mut folded = vec![0; 2 * table.len()];
        assert_eq!(fold(&entered_twice(&table), &mut folded), Answer::Done(FEW_ROWS as usize));
        assert_eq!(folded[..table.len()], table[..]);
    }
}
