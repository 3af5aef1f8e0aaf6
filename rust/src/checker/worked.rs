//! The worked cases (a) to (l) of the contract, and the program's example.

use super::marks::marks_of;
use super::part::part_of;
use super::*;
use crate::answer::Answer;

const A: [u32; 24] = [5, 1, 0, 1, 3, 2, 4, 0, 6, 3, 1, 2, 7, 1, 1, 1, 6, 5, 1, 2, 7, 1, 1, 2];
const B: [u32; 36] = [
    5, 1, 0, 1, 5, 2, 0, 1, 4, 3, 8, 0, 2, 4, 6, 0, 6, 5, 1, 2, 7, 2, 1, 2, 6, 7, 2, 2, 7, 2, 1, 2, 7, 0, 0,
    1,
];
const D1: [u32; 18] = [1, 1, 0, 0, 1, 11, 1, 2, 1, 1, 2, 2, 1, 3, 1, 1, 3, 101];
const D2: [u32; 12] = [2, 1, 0, 0, 1, 12, 2, 2, 1, 1, 2, 1];
const D3: [u32; 12] = [3, 1, 0, 0, 1, 13, 3, 2, 1, 1, 2, 3];
const D4: [u32; 12] = [4, 1, 0, 0, 1, 14, 4, 2, 1, 1, 2, 2];

/// The verdict, and the (device, at) of each marked row.
fn verdict_and_marks(rule: &[u32], tables: &[&[u32]]) -> (bool, Vec<(u32, u32)>) {
    let pool = tables.concat();
    let (found, bytes) = marks_of(rule, &pool).expect("accepted");
    assert_eq!(verdict(rule, &pool), Answer::Done(found as usize));
    let marked = rows_of(&pool).into_iter().zip(bytes).filter(|(_, mark)| *mark == 1);
    (found, marked.map(|(row, _)| (row.device, row.at)).collect())
}

/// Quantifiers around one another, and a comparison.
fn nested(quantifiers: u32) -> Vec<u32> {
    let mut rule: Vec<u32> = (1..=quantifiers).flat_map(|body| [5, body, 0, 1]).collect();
    rule.extend([7, 0, 1, 0]);
    rule
}

#[test]
fn rule_a() {
    assert_eq!(verdict_and_marks(&A, &[]), (true, vec![])); // (a)
    assert!(verdict_and_marks(&A, &[&D1, &D2]).0); // (b)
    assert_eq!(verdict_and_marks(&A, &[&D1, &D2, &D3]), (false, vec![(3, 1), (3, 2)])); // (c)
    assert_eq!(part_of(&A, &D1, 3), Ok(vec![])); // (d)
    assert_eq!(part_of(&A, &D3, 3), Ok(vec![3, 1, 0, 0, 1, 13])); // (e)
}

#[test]
fn rule_b() {
    assert_eq!(verdict_and_marks(&B, &[&D1, &D2]), (true, vec![(1, 1), (2, 1), (2, 2)])); // (f)
    let marked = vec![(1, 1), (1, 2), (4, 1), (4, 2)];
    assert_eq!(verdict_and_marks(&B, &[&D1, &D2, &D4]), (false, marked)); // (g)
    assert_eq!(part_of(&B, &D1, 3), Ok(D1[..2 * ROW_WORDS].to_vec())); // (h)
    assert_eq!(part_of(&B, &D2, 3), Ok(vec![]));
}

#[test]
fn refusals() {
    for value in [2_147_483_647, 2_147_483_648] {
        assert_eq!(check_table(&[1, 1, 0, 0, 1, value]), Answer::Done(1)); // (i), accepted on both sides
    }
    let doubled = [&D1[..], &[1, 4, 1, 1, 2, 2]].concat();
    assert_eq!(check_table(&doubled), Answer::refused(12, 3)); // (j)
    assert_eq!(check_rule(&nested(6)), Answer::Done(7)); // (k)
    assert_eq!(check_rule(&nested(7)), Answer::refused(6, 6));
    let mut pool = [&D2[..], &[0; 4 * ROW_WORDS]].concat();
    assert_eq!(join(&mut pool, D2.len(), &D1), Answer::refused(16, 0)); // (l)
}

/// The first line has six columns, and so has every other.
#[test]
fn pool_files_have_six_columns() {
    let file = "device at up deep name value\n2 1 0 0 1 12\n2 2 1 1 2 1\n";
    assert_eq!(POOL.text_of(&D2), file.as_bytes());
    let read = |file: &str| read_pool(file.as_bytes(), &mut [0; 12]);
    assert_eq!(read(file), Answer::Done(12));
    assert_eq!(read("device at up name value\n2 1 0 1 12\n"), Answer::refused(18, 1));
    assert_eq!(read("device at up name value\n2 1 0 0 1 12\n"), Answer::refused(18, 1));
    assert_eq!(read("device at up name deep value\n"), Answer::refused(18, 1));
    assert_eq!(read("device at up deep name value\n2 1 0 0 1 12\n2 2 1 2 1\n"), Answer::refused(19, 3));
}

/// 126 from the C entry, 26 and the row from the program.
#[test]
fn files_with_a_wrong_depth() {
    let pool = b"device at up deep name value\n1 1 0 0 1 11\n1 2 1 2 2 2\n";
    assert_eq!(check_files(&RULE.text_of(&A), pool), 126);
    assert_eq!(report_text(&RULE.text_of(&A), pool), "refused place\n26 1\n");
    assert_eq!(read_pool(pool, &mut [0; 12]), Answer::Done(12));
    let table = [1, 1, 0, 0, 1, 11, 1, 2, 1, 2, 2, 2];
    assert_eq!(write_pool(&table, &mut [0; 99]), Answer::refused(26, 1));
    assert_eq!(verdict(&A, &table), Answer::refused(26, 1));
    assert_eq!(part(&A, &table, 0, &mut []), Answer::refused(26, 1));
    assert_eq!(device_rows(&table, 1).length, 0);
    assert_eq!(join(&mut [&table[..], &[0; 12]].concat(), 12, &D2), Answer::refused(26, 1));
    assert_eq!(join(&mut [&D1[..], &[0; 12]].concat(), 18, &table), Answer::refused(26, 1));
}

#[test]
fn program_example() {
    let (rule, pool) = (RULE.text_of(&B), POOL.text_of(&[&D1[..], &D2[..]].concat()));
    assert_eq!(report_text(&rule, &pool), "verdict rows branch full marks\n1 5 4 2 3\n");
    assert_eq!(check_files(&rule, &pool), 1);
    assert_eq!(report_text(&[], &pool), "refused place\n18 1\n");
    let long = vec![b'x'; MOST_FILE_BYTES + 1];
    assert_eq!(report_text(&long, &pool), "refused place\n1 0\n");
    assert_eq!(report_text(&rule, &long), "refused place\n8 0\n");
    assert_eq!(check_files(&rule, &long), 118);
}
