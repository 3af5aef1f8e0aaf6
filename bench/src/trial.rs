//! Trials of the rule book: single steps, by which rules reach their row, and plans of many.

use gabzeril_tests::checker::{rows_of, words_of, ADD, REMOVE, SET, STEP_WORDS};
use gabzeril_tests::generate::Plan;

use crate::calls::Call;
use crate::cases::{case, label, Case};
use crate::inputs::{devices, root, rule_book, under};
use crate::instructions::{shown, Counts};

pub const POOL: &str = "devices of three rows and six rows more";
const BOOK_ON_POOL: &str = "rule book of 20, devices of three rows and six rows more";
const ROWS: u32 = 1_020;

/// The device that has rows which others have not.
const MIDDLE: u32 = 169;
/// A root and nothing else.
const LONE: u32 = 400;
/// A name that no rule of the book has.
const OTHER: u32 = 6;

/// 338 devices of three rows, six rows more: of the middle device two that no rule names, two interfaces under
/// its mode, which no rule reaches, and an interface; and a lone root behind all.
fn pool() -> Vec<u32> {
    let mut rows = rows_of(&devices(ROWS - 6, 1));
    let end = rows.partition_point(|row| row.device <= MIDDLE);
    let (top, mode) = (rows[end - 3], rows[end - 2]);
    let more = [
        under(&top, 4, OTHER, 1),
        under(&mode, 5, 3, 110),
        under(&top, 6, 3, 110),
        under(&top, 7, OTHER, 2),
        under(&mode, 8, 3, 120),
    ];
    rows.splice(end..end, more);
    rows.push(root(LONE, 1, 1, 9_000));
    words_of(&rows)
}

/// The rules that reach the row of a step.
#[derive(Clone, Copy, PartialEq)]
enum Reach {
    All,
    Some,
    None,
}

/// Single steps.
const STEPS: [(&str, Reach, [u32; STEP_WORDS]); 12] = [
    ("a root set", Reach::All, [SET, MIDDLE, 1, 0, 0, 0, 5_000]),
    ("a root added", Reach::All, [ADD, LONE - 1, 1, 0, 0, 1, 5_001]),
    ("a root removed", Reach::All, [REMOVE, LONE, 1, 0, 0, 0, 0]),
    ("an interface set", Reach::Some, [SET, MIDDLE, 6, 0, 0, 0, 111]),
    ("an interface added", Reach::Some, [ADD, MIDDLE, 9, 1, 1, 3, 112]),
    ("an interface removed", Reach::Some, [REMOVE, MIDDLE, 6, 0, 0, 0, 0]),
    ("a row of another name set", Reach::None, [SET, MIDDLE, 4, 0, 0, 0, 4]),
    ("a row of another name added", Reach::None, [ADD, MIDDLE, 9, 1, 1, OTHER, 3]),
    ("a row of another name removed", Reach::None, [REMOVE, MIDDLE, 4, 0, 0, 0, 0]),
    ("an interface under a mode set", Reach::None, [SET, MIDDLE, 5, 0, 0, 0, 111]),
    ("an interface under a mode added", Reach::None, [ADD, MIDDLE, 9, 2, 2, 3, 112]),
    ("an interface under a mode removed", Reach::None, [REMOVE, MIDDLE, 5, 0, 0, 0, 0]),
];

/// The first step of the plans of two.
const FIRST: [u32; STEP_WORDS] = [SET, 1, 1, 0, 0, 0, 5_002];

const MANY: usize = 100;

/// Plans of as many steps, of each kind in turn but for roots, which are set.
fn plans_of_many() -> [(&'static str, Vec<u32>); 3] {
    let in_turn = |added: [u32; STEP_WORDS], set: [u32; STEP_WORDS]| {
        let removed = [REMOVE, added[1], added[2], 0, 0, 0, 0];
        let reset = [SET, set[1], set[2], 0, 0, 0, set[6] + 100];
        [added, set, removed, reset].into_iter().cycle().take(MANY).collect::<Vec<_>>().concat()
    };
    let roots = (1..=MANY as u32).flat_map(|device| [SET, device, 1, 0, 0, 0, 6_000 + device]).collect();
    [
        ("100 steps, roots", roots),
        ("100 steps, interfaces", in_turn(STEPS[4].2, STEPS[3].2)),
        ("100 steps, rows of another name", in_turn(STEPS[7].2, STEPS[6].2)),
    ]
}

fn on(steps: &str) -> String {
    format!("{BOOK_ON_POOL}: {steps}")
}

const NO_STEPS: &str = "no steps";
const FIRST_STEP: &str = "one step, a root set";

/// A plan's case, by what its steps are.
fn case_of(steps: &str, words: &[u32]) -> Case {
    let plan = Plan { set: rule_book(), pool: pool(), steps: words.to_vec() };
    case(Call::Try { plan }, on(steps), ROWS)
}

pub fn add_cases(cases: &mut Vec<Case>) {
    cases.push(case(Call::CheckTable { table: pool() }, POOL, ROWS));
    cases.push(case(Call::SetVerdicts { set: rule_book(), pool: pool() }, BOOK_ON_POOL, ROWS));
    cases.push(case_of(NO_STEPS, &[]));
    cases.push(case_of(FIRST_STEP, &FIRST));
    for (what, _, step) in STEPS {
        cases.push(case_of(&second(what), &[FIRST, step].concat()));
    }
    for (what, steps) in plans_of_many() {
        cases.push(case_of(what, &steps));
    }
}

fn second(what: &str) -> String {
    format!("two steps, {what} by the second")
}

/// Prints lines of the table of asked figures: a step is what a plan takes more than the same plan without it.
pub fn print_asked(counts: &Counts) {
    let of_try = |steps: &str| counts.of(&label("try", &on(steps), ROWS));
    let check = counts.of(&label("check_table", POOL, ROWS));
    let verdicts = counts.of(&label("set_verdicts", BOOK_ON_POOL, ROWS));
    print_line("no steps: over check_table", of_try(NO_STEPS), check, None);
    let both = verdicts.zip(check).map(|(verdicts, check)| verdicts + check);
    let first = less(of_try(FIRST_STEP), of_try(NO_STEPS));
    print_line("the first step, a root set: over set_verdicts and check_table", first, both, None);
    for (what, reach, _) in STEPS {
        let step = less(of_try(&second(what)), of_try(FIRST_STEP));
        match reach {
            Reach::None => {
                let what = format!("a later step, {what}, which no rule reaches: over check_table");
                print_line(&what, step, check, Some(3.0));
            }
            _ => print_line(
                &format!("a later step, {what}: over set_verdicts and check_table"),
                step,
                both,
                None,
            ),
        }
    }
    for (what, _) in plans_of_many() {
        let steps = less(of_try(what), of_try(NO_STEPS));
        print_line(&format!("{what}: over set_verdicts and check_table"), steps, both, None);
        let each = steps.map(|steps| steps / MANY as u64);
        print_line(&format!("{what}, each"), each, both, None);
    }
}

fn less(count: Option<u64>, other: Option<u64>) -> Option<u64> {
    count.zip(other).map(|(count, other)| count.saturating_sub(other))
}

/// A count, beside the one that it is measured by.
fn print_line(what: &str, count: Option<u64>, by: Option<u64>, most: Option<f64>) {
    let ratio = count.zip(by).map(|(count, by)| count as f64 / by as f64);
    let asked = most.map_or("report".into(), |most| format!("{most} times"));
    let times = ratio.map_or("".into(), |ratio| format!(", {ratio:.2} times {}", shown(by)));
    let met = most.zip(ratio).map_or("", |(most, ratio)| if ratio <= most { "yes" } else { "no" });
    println!("| try | {what} | {ROWS} | {asked} | | {}{times} | {met} |", shown(count));
}

#[cfg(test)]
mod tests {
    use super::*;
    use gabzeril_tests::checker::{accepted_set, check_table, is_reached, rows_after, Row};

    /// The tables that have the row of a step: before it if it is removed, else after it.
    fn row_and_table(step: &[u32; STEP_WORDS]) -> (usize, Vec<Row>) {
        let before = rows_of(&pool());
        let after = rows_after(&before, step).expect("a step that can be done");
        let table = if step[0] == REMOVE { before } else { after };
        let place = table.iter().position(|row| [row.device, row.at] == step[1..3]).expect("its row");
        (place, table)
    }

    #[test]
    fn steps_are_as_described() {
        assert_eq!(check_table(&pool()).number(), 0);
        assert_eq!(rows_of(&pool()).len(), ROWS as usize);
        let set = rule_book();
        let rules = accepted_set(&set.rules, &set.counts).expect("an accepted set");
        for (what, reach, step) in STEPS {
            let (place, table) = row_and_table(&step);
            let reaching = rules.iter().filter(|rule| is_reached(rule, &table, place)).count();
            let found = match reaching {
                0 => Reach::None,
                20 => Reach::All,
                _ => Reach::Some,
            };
            assert!(found == reach, "{what}: {reaching} rules");
        }
    }

    #[test]
    fn plans_can_be_done() {
        for (what, steps) in plans_of_many() {
            assert_eq!(steps.len(), MANY * STEP_WORDS);
            let mut steps = steps.chunks(STEP_WORDS);
            let left = steps.try_fold(rows_of(&pool()), |rows, step| rows_after(&rows, step));
            assert!(left.is_ok(), "{what}: {left:?}");
        }
        rows_after(&rows_of(&pool()), &FIRST).expect("a step that can be done");
    }
}
