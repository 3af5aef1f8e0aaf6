//! include/gabzeril.h has numbers of its own, which no proof reads: each must be the checker's. A name that
//! is not listed here fails.

use std::collections::{BTreeMap, BTreeSet};
use std::fs;
use std::path::Path;

use gabzeril_tests::answer::Answer;
use gabzeril_tests::checker::{self, *};
use gabzeril_tests::largest;

/// Names without GABZERIL_, and their numbers.
type Numbers = BTreeMap<String, u64>;

/// A table of two roots on different devices.
const TWO_DEVICES: [u32; 12] = [1, 1, 0, 0, 1, 1, 2, 1, 0, 0, 1, 2];
/// Some root named 1 has the value 1.
const RULE_OF_ROOTS: [u32; 8] = [6, 1, 0, 1, 7, 0, 1, 1];

/// What the header has beside constants.
const OTHER_NAMES: [&str; 37] = [
    "GABZERIL_H",
    "gabzeril_answer",
    "gabzeril_check_files",
    "gabzeril_check_rule",
    "gabzeril_check_set",
    "gabzeril_check_table",
    "gabzeril_device_rows",
    "gabzeril_entry_column",
    "gabzeril_fill",
    "gabzeril_fold",
    "gabzeril_from_columns",
    "gabzeril_join",
    "gabzeril_kind",
    "gabzeril_marks",
    "gabzeril_mode",
    "gabzeril_part",
    "gabzeril_read_pool",
    "gabzeril_read_rule",
    "gabzeril_refusal",
    "gabzeril_refusal_text",
    "gabzeril_report",
    "gabzeril_row_column",
    "gabzeril_set_part",
    "gabzeril_set_verdicts",
    "gabzeril_span",
    "gabzeril_step",
    "gabzeril_to_columns",
    "gabzeril_trial",
    "gabzeril_try",
    "gabzeril_value",
    "gabzeril_verdict",
    "gabzeril_word",
    "gabzeril_write_pool",
    "gabzeril_write_rule",
    "GABZERIL_UNDER",
    "GABZERIL_VALUE_LEAST",
    "GABZERIL_VERSION",
];

fn text_of(path: &str) -> String {
    let root = Path::new(env!("CARGO_MANIFEST_DIR")).join("..");
    fs::read_to_string(root.join(path)).unwrap_or_else(|error| panic!("{path}: {error}"))
}

/// The header without its comments.
fn header() -> String {
    let text = text_of("include/gabzeril.h");
    let mut parts = text.split("/*");
    let first = parts.next().expect("a first part").to_string();
    let code = parts.map(|part| part.split_once("*/").expect("an ended comment").1);
    first + &code.collect::<String>()
}

/// The names and texts of the macros.
fn macros(header: &str) -> Vec<(&str, &str)> {
    let lines = header.lines().filter_map(|line| line.trim().strip_prefix("#define "));
    lines
        .map(|line| line.split_once(' ').unwrap_or((line, "")))
        .map(|(name, text)| (name, text.trim()))
        .collect()
}

/// The text of a macro that is no number.
fn macro_text(name: &str) -> String {
    let header = header();
    let found = macros(&header).into_iter().find(|(found, _)| *found == name);
    found.unwrap_or_else(|| panic!("no macro {name}")).1.to_string()
}

/// Every macro with a number and every enumerator.
fn numbers_of_header() -> Numbers {
    let (header, mut found) = (header(), Numbers::new());
    for (name, text) in macros(&header) {
        let is_number = text.starts_with(|c: char| c.is_ascii_digit()) || text.contains("GABZERIL_");
        if is_number {
            let number = product(text, &found);
            add(&mut found, name, number);
        }
    }
    for body in header.split("enum ").skip(1).map(|part| between(part, "{", "}")) {
        let mut next = 0;
        for item in body.split(',').map(str::trim).filter(|item| !item.is_empty()) {
            let (name, number) =
                item.split_once('=').map_or((item, next), |(name, text)| (name, product(text, &found)));
            add(&mut found, name.trim(), number);
            next = number + 1;
        }
    }
    found
}

fn add(numbers: &mut Numbers, name: &str, number: u64) {
    let name = name.strip_prefix("GABZERIL_").unwrap_or_else(|| panic!("{name} is a name of others"));
    assert!(numbers.insert(name.to_string(), number).is_none(), "{name} stands twice");
}

/// A number, or a product of names that stand above it.
fn product(text: &str, known: &Numbers) -> u64 {
    let factors = text.trim().trim_start_matches('(').trim_end_matches(')').split('*').map(str::trim);
    let number = |factor: &str| match factor.strip_prefix("GABZERIL_") {
        Some(name) => known[name],
        None => factor.parse().unwrap_or_else(|_| panic!("{text} is no product of numbers")),
    };
    factors.map(number).product()
}

fn between<'a>(text: &'a str, start: &str, end: &str) -> &'a str {
    let inside = text.split_once(start).and_then(|(_, rest)| rest.split_once(end));
    inside.unwrap_or_else(|| panic!("no {start} .. {end}")).0
}

/// What the header must have, by the checker.
fn numbers_of_checker() -> Numbers {
    let parts = [limits(), buffers(), columns(), kinds(), second_words(), modes(), steps(), refusals()];
    let mut numbers = Numbers::new();
    for (name, number) in parts.into_iter().flatten() {
        assert!(numbers.insert(name.clone(), number).is_none(), "{name} stands twice");
    }
    numbers
}

fn limits() -> Vec<(String, u64)> {
    named([
        ("ENTRY_WORDS", ENTRY_WORDS as u64),
        ("ROW_WORDS", ROW_WORDS as u64),
        ("STEP_WORDS", STEP_WORDS as u64),
        ("ENTRY_LIMIT", MOST_ENTRIES as u64),
        ("ROW_LIMIT", MOST_ROWS as u64),
        ("NESTING_LIMIT", MOST_NESTED as u64),
        ("SET_LIMIT", MOST_RULES as u64),
        ("PARAMETER_LIMIT", MOST_PARAMETERS as u64),
        ("NAME_LIMIT", MOST_NAME.into()),
        ("ANY_NAME", ANY_NAME.into()),
        ("VALUE_LIMIT", MOST_VALUE.into()),
    ])
}

fn named<const N: usize>(pairs: [(&str, u64); N]) -> Vec<(String, u64)> {
    pairs.map(|(name, number)| (name.to_string(), number)).to_vec()
}

/// `buffers_suffice` tells why the files are no longer. The report has room to spare.
fn buffers() -> Vec<(String, u64)> {
    named([
        ("RULE_WORDS", (MOST_ENTRIES * ENTRY_WORDS) as u64),
        ("SET_WORDS", (MOST_RULES * MOST_ENTRIES * ENTRY_WORDS) as u64),
        ("TABLE_WORDS", (MOST_ROWS * ROW_WORDS) as u64),
        ("RULE_FILE_BYTES", RULE.text_of(&longest_entry().repeat(MOST_ENTRIES)).len() as u64),
        ("POOL_FILE_BYTES", POOL.text_of(&longest_row().repeat(MOST_ROWS)).len() as u64),
        ("PROGRAM_FILE_BYTES", MOST_FILE_BYTES as u64),
        ("REPORT_BYTES", 64),
    ])
}

/// The columns are those of the files' first lines.
fn columns() -> Vec<(String, u64)> {
    let of_line = |format: Format| format.first_line.to_uppercase();
    let lines = [of_line(POOL), of_line(RULE)];
    let pairs = lines.iter().flat_map(|line| line.split_whitespace().zip(0..));
    pairs.map(|(name, place)| (name.to_string(), place)).collect()
}

fn kinds() -> Vec<(String, u64)> {
    let known = (0..100).filter(|&kind| check_rule(&[kind, 1, 0, 1]).number() != 2);
    known.map(|kind| (kind_name(kind).to_string(), kind.into())).collect()
}

fn kind_name(kind: u32) -> &'static str {
    match Entry::from_words([kind, 1, 0, 1]) {
        Entry::Not { .. } => "NOT",
        Entry::And { .. } => "AND",
        Entry::Or { .. } => "OR",
        Entry::Implies { .. } => "IMPLIES",
        Entry::Quantifier(quantifier) if quantifier.every => "EVERY",
        Entry::Quantifier(_) => "SOME",
        Entry::Comparison(comparison) => match comparison.relation {
            Relation::Equal => "EQUAL",
            Relation::Less => "LESS",
            Relation::AtMost => "AT_MOST",
        },
    }
}

/// b of a quantifier over roots, and of a comparison that uses two variables or one, or is a blank.
fn second_words() -> Vec<(String, u64)> {
    let least = |test: fn(u32) -> bool| (0..).find(|&b| test(b)).expect("a word").into();
    named([
        ("ROOTS", least(|b| under(b).is_none())),
        ("VARIABLE", least(|b| Entry::from_words([7, 0, b, 0]).variables().len() == 2)),
        ("CONSTANT", least(|b| Entry::from_words([7, 0, b, 0]).variables().len() == 1)),
        ("PARAMETER", least(|b| fill(&[5, 1, 0, 1, 7, 0, b, 0], &[1], &mut [0; 8]).number() == 0)),
    ])
}

/// The variable of the parent that b of a quantifier names.
fn under(b: u32) -> Option<usize> {
    Entry::from_words([5, 1, b, 1]).quantifier().expect("a quantifier").under
}

/// A device of four rows: one is on no path of the rule, and one of the others can't decide it.
fn modes() -> Vec<(String, u64)> {
    let rule = [6, 1, 0, 1, 6, 2, 1, 7, 7, 1, 1, 1];
    let table = [1, 1, 0, 0, 1, 11, 1, 2, 1, 1, 3, 1, 1, 3, 1, 1, 7, 1, 1, 4, 1, 1, 7, 2];
    let sends = |mode: u32| part(&rule, &table, mode, &mut [0; 24]);
    let known = (0..100).filter(|&mode| sends(mode).number() != 13);
    let name = |mode| match sends(mode) {
        Answer::Done(4) => "ALL",
        Answer::Done(3) => "BRANCH",
        Answer::Done(2) => "FULL",
        other => panic!("mode {mode}: {other:?}"),
    };
    known.map(|mode| (name(mode).to_string(), mode.into())).collect()
}

/// The kinds of step by what they do to a table of one row.
fn steps() -> Vec<(String, u64)> {
    let rows = rows_of(&TWO_DEVICES[..ROW_WORDS]);
    let after = |kind: u32| [1, 2].map(|at| rows_after(&rows, &[kind, 1, at, 0, 0, 1, 2]));
    let known = (0..100).filter(|&kind| after(kind) != [Err(23), Err(23)]);
    let name = |kind| match after(kind).map(|rows| rows.map(|rows| rows.len())) {
        [Ok(1), Err(24)] => "STEP_SET",
        [Err(10), Ok(2)] => "STEP_ADD",
        [Ok(0), Err(24)] => "STEP_REMOVE",
        other => panic!("kind {kind}: {other:?}"),
    };
    known.map(|kind| (name(kind).to_string(), kind.into())).collect()
}

/// Each refusal by a call that is refused so.
fn refusals() -> Vec<(String, u64)> {
    let one_row = &TWO_DEVICES[..ROW_WORDS];
    let too_nested: Vec<u32> =
        (0..=MOST_NESTED as u32).flat_map(|place| [5, place + 1, 0, 1]).chain([7, 0, 1, 0]).collect();
    let answers = [
        ("ACCEPTED", check_rule(&RULE_OF_ROOTS)),
        ("REFUSED_RULE_LENGTH", check_rule(&[])),
        ("REFUSED_KIND", check_rule(&[0, 0, 0, 0])),
        ("REFUSED_WORD", check_rule(&[5, 1, 0, MOST_NAME + 1])),
        ("REFUSED_CHILD", check_rule(&[5, 0, 0, 1])),
        ("REFUSED_NAMING", check_rule(&[5, 1, 0, 1, 7, 0, 1, 0, 7, 0, 1, 0])),
        ("REFUSED_NESTING", check_rule(&too_nested)),
        ("REFUSED_VARIABLE", check_rule(&[7, 0, 1, 0])),
        ("REFUSED_TABLE_LENGTH", check_table(&[1])),
        ("REFUSED_RANGE", check_table(&[0, 1, 0, 0, 1, 1])),
        ("REFUSED_ORDER", check_table(&[2, 1, 0, 0, 1, 1, 1, 1, 0, 0, 1, 2])),
        ("REFUSED_PARENT", check_table(&[1, 2, 1, 1, 1, 1])),
        ("REFUSED_DEPTH", check_table(&[1, 1, 0, 1, 1, 1])),
        ("REFUSED_COUNTS", check_set(&RULE_OF_ROOTS, &[])),
        ("REFUSED_BLANK", fill(&[6, 1, 0, 1, 7, 0, 2, 0], &[], &mut [])),
        ("REFUSED_PARAMETERS", fill(&RULE_OF_ROOTS, &[1], &mut [])),
        ("REFUSED_STEP", try_step([0, 1, 1, 0, 0, 1, 1])),
        ("REFUSED_ABSENT", try_step([SET, 2, 1, 0, 0, 1, 1])),
        ("REFUSED_REMOVAL", try_step([REMOVE, 1, 1, 0, 0, 1, 1])),
        ("REFUSED_ROWS", to_columns(&[1], &mut [])),
        ("REFUSED_SIBLING", check_table(&[1, 1, 0, 0, 1, 1, 2, 1, 0, 0, 1, 1])),
        ("REFUSED_MODE", part(&RULE_OF_ROOTS, one_row, 0, &mut [])),
        ("REFUSED_DEVICE", part(&RULE_OF_ROOTS, &TWO_DEVICES, 1, &mut [])),
        ("REFUSED_JOIN", join(&mut TWO_DEVICES.clone(), TWO_DEVICES.len(), one_row)),
        ("REFUSED_SHORT_OUTPUT", marks(&RULE_OF_ROOTS, one_row, &mut [])),
        ("REFUSED_FIRST_LINE", read_rule(b"", &mut [])),
        ("REFUSED_LINE", read_rule(b"kind a b c\n1", &mut [])),
    ];
    named(answers.map(|(name, answer)| (name, answer.number().into())))
}

/// A step on a root and a row under it.
fn try_step(step: [u32; STEP_WORDS]) -> Answer {
    let pool = [1, 1, 0, 0, 1, 1, 1, 2, 1, 1, 1, 1];
    try_plan(&RULE_OF_ROOTS, &[2], &pool, &step, &mut pool.clone(), &mut [0]).answer()
}

/// The refusals that an answer may have.
fn refusal_numbers() -> BTreeSet<u64> {
    let is_refusal = |&number: &u32| matches!(Answer::from_words(number, 0, 0), Answer::Refused(_));
    (0..1_000).filter(is_refusal).map(u64::from).collect()
}

/// The longest words that the checks of words let pass: variable, b and constant of a comparison.
fn longest_entry() -> Vec<u32> {
    vec![9, MOST_NESTED as u32 - 1, 1, LEAST_VALUE]
}

/// No row hangs under more than all others.
fn longest_row() -> Vec<u32> {
    let deep = MOST_ROWS as u32 - 1;
    let (device, at, up, name) = (MOST_NAME, MOST_NAME, MOST_NAME, MOST_NAME);
    Row { device, at, up, deep, name, value: LEAST_VALUE }.words().to_vec()
}

#[test]
fn every_number_is_the_checkers() {
    let (found, expected) = (numbers_of_header(), numbers_of_checker());
    for (name, number) in &expected {
        assert_eq!(found.get(name), Some(number), "GABZERIL_{name}");
    }
    let unknown: Vec<&String> = found.keys().filter(|name| !expected.contains_key(*name)).collect();
    assert!(unknown.is_empty(), "the checker has nothing for {unknown:?}");
}

#[test]
fn every_name_is_known() {
    let (header, numbers) = (header(), numbers_of_checker());
    let is_known = |name: &str| {
        let number = name.strip_prefix("GABZERIL_").is_some_and(|name| numbers.contains_key(name));
        number || OTHER_NAMES.contains(&name)
    };
    // The name of a file is not one of these.
    let lines = header.lines().filter(|line| !line.starts_with("#include"));
    let words = lines.flat_map(|line| line.split(|c: char| !(c.is_alphanumeric() || c == '_')));
    for name in words.filter(|word| word.to_lowercase().starts_with("gabzeril")) {
        assert!(is_known(name), "{name}");
    }
    for (name, _) in macros(&header) {
        assert!(is_known(name.trim_end_matches("(variable)")), "#define {name}");
    }
}

#[test]
fn every_refusal_has_one_name_and_one_text() {
    let found = numbers_of_header();
    let is_name = |name: &String| name == "ACCEPTED" || name.starts_with("REFUSED_");
    let mut named: Vec<u64> =
        found.iter().filter(|(name, _)| is_name(name)).map(|(_, &number)| number).collect();
    named.sort();
    let numbers: Vec<u64> = [0].into_iter().chain(refusal_numbers()).collect();
    assert_eq!(named, numbers);
    assert!(!named.contains(&15) && !named.contains(&27));
    let texts = refusal_texts();
    assert_eq!(texts.len() as u64, numbers.last().expect("a number") + 1);
    // The numbers below the largest that are not used share one text, which no other has.
    let is_used = |number: &u64| texts[*number as usize] != "not used";
    assert_eq!((0..texts.len() as u64).filter(is_used).collect::<Vec<_>>(), numbers);
    let used: BTreeSet<&String> = numbers.iter().map(|&number| &texts[number as usize]).collect();
    assert_eq!(used.len(), numbers.len(), "two have one text: {texts:?}");
}

/// The texts by number. The comment before each has its number too.
fn refusal_texts() -> Vec<String> {
    let header = text_of("include/gabzeril.h");
    let body = between(&header, "texts[] = {", "};");
    let lines = body.lines().map(str::trim).filter(|line| !line.is_empty());
    let text = |(number, line): (usize, &str)| {
        let text = line.strip_prefix(&format!("/* {number} */ \"")).and_then(|rest| rest.strip_suffix("\","));
        text.unwrap_or_else(|| panic!("not the text of {number}: {line}")).to_string()
    };
    lines.enumerate().map(text).collect()
}

#[test]
fn under_names_the_variable() {
    assert_eq!(macro_text("GABZERIL_UNDER(variable)"), "(1 + (variable))");
    for variable in 0..MOST_NESTED {
        assert_eq!(under(1 + variable as u32), Some(variable));
    }
}

/// Names of quantifiers are those of rows and one more, which takes rows of each.
#[test]
fn any_name_is_no_rows_name() {
    let of_quantifier = |name: &u32| check_rule(&[6, 1, 0, *name, 7, 0, 1, 1]).number() == 0;
    let of_row = |name: u32| check_table(&[1, 1, 0, 0, name, 1]).number() == 0;
    let names = (0..=MOST_NAME + 1).chain([u32::MAX]);
    let any: Vec<u32> = names.clone().filter(of_quantifier).filter(|&name| !of_row(name)).collect();
    assert_eq!(any, [ANY_NAME]);
    assert!(names.filter(|&name| of_row(name)).eq(1..=MOST_NAME));
    let rule = |name: u32| [6, 1, 0, name, 7, 0, 1, 1];
    for name in [1, 2, MOST_NAME] {
        let row = [1, 1, 0, 0, name, 1];
        assert_eq!(verdict(&rule(ANY_NAME), &row), Answer::Done(1));
        assert_eq!(verdict(&rule(3), &row), Answer::Done(0));
    }
    assert_eq!(check_rule(&rule(MOST_NAME + 1)), Answer::refused(3, 0));
    assert_eq!(check_table(&[1, 1, 0, 0, ANY_NAME, 1]), Answer::refused(9, 0));
}

/// C would take -2147483648 for a minus sign before a number that int does not have.
#[test]
fn the_least_value_is_a_difference() {
    assert_eq!(macro_text("GABZERIL_VALUE_LEAST"), "(-2147483647 - 1)");
    assert_eq!(value_of(LEAST_VALUE), -i64::from(MOST_VALUE) - 1);
}

/// No entry and no row has a longer line, and accepted ones do not pass the lengths.
#[test]
fn files_fit_their_buffers() {
    let (child, variable) = (MOST_ENTRIES as u32 - 1, MOST_NESTED as u32 - 1);
    let bytes = |format: Format, words: &[u32]| format.text_of(words).len();
    for kind in 1..=9 {
        let words = match kind {
            1 => [kind, child, 0, 0],
            2..=4 => [kind, child, child, 0],
            5 | 6 => [kind, child, 1 + variable, MOST_NAME],
            _ => [kind, variable, 1, LEAST_VALUE],
        };
        assert!(bytes(RULE, &words) <= bytes(RULE, &longest_entry()), "{words:?}");
        // So the file of a template fits, too: the number of a parameter has no sign.
        assert!(bytes(RULE, &[kind, variable, 2, u32::MAX]) <= bytes(RULE, &longest_entry()), "{kind}");
    }
    let numbers = numbers_of_header();
    for rule in largest::rules().into_iter().chain([largest::longest_rule()]) {
        let mut file = vec![0; numbers["RULE_FILE_BYTES"] as usize];
        assert_eq!(checker::write_rule(&rule, &mut file), Answer::Done(bytes(RULE, &rule)));
    }
    // The first row is a root: its up has one digit and not five. Few rows can be so deep that deep has four.
    let digits_of_deep: usize = (0..MOST_ROWS).map(|deep| deep.to_string().len()).sum();
    let fewer = 4 + 4 * MOST_ROWS - digits_of_deep;
    let mut file = vec![0; numbers["POOL_FILE_BYTES"] as usize];
    assert_eq!(checker::write_pool(&largest::longest_pool(), &mut file), Answer::Done(file.len() - fewer));
}

/// Texts whose numbers all have as many digits as they can.
#[test]
fn reports_fit_their_buffer() {
    let room = numbers_of_header()["REPORT_BYTES"] as usize;
    // Every two roots are above one another or equal: all are marked, and no switch can know it alone.
    let rule = [5, 1, 0, 1, 5, 2, 0, 1, 3, 3, 4, 0, 8, 0, 0, 1, 9, 1, 0, 0];
    let roots: Vec<u32> = (1..=MOST_ROWS as u32).flat_map(|at| [1, at, 0, 0, 1, at]).collect();
    let text = report_text(&RULE.text_of(&rule), &POOL.text_of(&roots));
    assert_eq!(text, "verdict rows branch full marks\n1 1024 1024 1024 1024\n");
    assert!(text.len() <= room);
    // The last of as many lines as a file has at most is not ended.
    let mut lines = POOL.text_of(&[0; ROW_WORDS].repeat(MOST_FILE_BYTES));
    lines.truncate(MOST_FILE_BYTES);
    let text = report_text(&RULE.text_of(&RULE_OF_ROOTS), &lines);
    assert!(text.starts_with("refused place\n19 ") && text.len() <= room, "{text}");
}

#[test]
fn version_is_the_changelogs() {
    let changelog = text_of("CHANGELOG.md");
    let mut headings = changelog.lines().filter_map(|line| line.strip_prefix("## "));
    let newest = headings.find(|heading| heading.starts_with(|c: char| c.is_ascii_digit()));
    let version = newest.and_then(|heading| heading.split(',').next()).expect("a heading with a version");
    assert_eq!(macro_text("GABZERIL_VERSION"), format!("\"{version}\""));
}
