//! Values and constants on both sides of zero, through every call that compares, reads or writes them.
#![cfg(all(
    feature = "lower",
    feature = "engine",
    feature = "parts",
    feature = "files_entry",
    feature = "sets",
    feature = "trial"
))]

use gabzeril_tests::answer::Answer;
use gabzeril_tests::checker::{devices_of, Format, LEAST_VALUE, MOST_VALUE, POOL, RULE};
use gabzeril_tests::compare::each_call::{each_file, each_on_words, each_part, mostly_one_device};
use gabzeril_tests::compare::{calls, run, Case};
use gabzeril_tests::ffi;
use gabzeril_tests::generate::*;

const LIMIT: Together = Together { rows: 40, cost: 10_000 };

/// Accepted files, of one row and of a rule that is true on it.
const POOL_FILE: &[u8] = b"device at up deep name value\n1 1 0 0 1 -2147483648\n";
const RULE_FILE: &[u8] = b"kind a b c\n6 1 0 1\n8 0 1 -2147483647\n";

// What the order of the words would give.
const OTHER_MARKS: &str = "other marks by the order of the words";
const OTHER_PART: &str = "another full part by the order of the words";
const OTHER_VERDICTS: &str = "other verdicts of a set by the order of the words";

// What the last number of a line is taken for, behind a line where it is taken otherwise.
const SIGN: &str = "a constant with a sign, behind a line without constant";
const NO_CONSTANT: &str = "refused: a sign and no constant, behind a line with a constant";
const LARGE: &str = "above 2,147,483,647 and no constant, behind a line with a constant";
const LARGE_CONSTANT: &str = "refused: a constant above 2,147,483,647, behind a line without";
const CUT: &str = "refused: a file that ends behind a sign";

/// One request in five is damaged.
#[test]
fn every_call() {
    let tally = run("every_call_on_signs", 14_000, 170_000, |case| {
        let (mut rule, mut pool) = rule_and_signs(&mut case.random, LIMIT);
        if case.random.chance(20) {
            (rule, pool) = damaged_together(&mut case.random, rule, pool);
        } else {
            case.note_met([
                (other_verdict(&rule, &pool), OTHER_VERDICT),
                (other_marks(&rule, &pool), OTHER_MARKS),
            ]);
        }
        // A damage may leave both accepted, but far too long to evaluate.
        if verdict_cost(&rule, &pool) <= 10 * LIMIT.cost {
            each_call(case, &rule, &pool);
        }
    });
    tally.saw_each([0], 100_000);
    tally.saw_each(RULE_FAULTS, 300);
    tally.saw_each(TABLE_FAULTS, 300);
    tally.saw_each([14, 17, 18, 19], 300);
    tally.saw_both_values(20_000);
    tally.saw_noted(OTHER_VERDICT, 7_000);
    tally.saw_noted(OTHER_MARKS, 5_000);
    tally.saw_noted(OTHER_PART, 2_500);
}

fn each_call(case: &mut Case, rule: &[u32], pool: &[u32]) {
    each_on_words(case, rule, pool);
    let device = mostly_one_device(case, pool);
    if reading_cost(rule, device) <= 10 * LIMIT.cost {
        // Where all rows are sent, nothing is refused.
        if words_sent(rule, device, 1) > 0 && other_part(rule, device) {
            case.note(OTHER_PART);
        }
        each_part(case, rule, device);
    }
    each_file(case, rule, pool, 10 * LIMIT.cost);
}

/// Read, and written back byte for byte, with numbers of every width; the buffers just fit, and a byte less is 17.
#[test]
fn files_come_back() {
    let tally = run("files_come_back", 8_000, 48_000, |case| {
        let (rule, pool) = rule_and_signs(&mut case.random, LIMIT);
        let (rule, pool) =
            (renumbered_rule(&mut case.random, &rule), renumbered_table(&mut case.random, &pool));
        comes_back(case, RULE, ffi::read_rule, ffi::write_rule, &rule);
        comes_back(case, POOL, ffi::read_pool, ffi::write_pool, &pool);
    });
    tally.saw_each([0], 32_000);
    tally.saw_each([17], 16_000);
}

fn comes_back(case: &mut Case, format: Format, read: calls::Read, write: calls::Write, words: &[u32]) {
    let file = format.text_of(words);
    let mut table = case.random.words(words.len());
    let answer = read(&file, &mut table);
    let same = answer == Answer::Done(words.len()) && table == words;
    case.compared(same, answer, || format!("{words:?}: read {answer:?} {table:?}"));
    let mut written = case.random.bytes(file.len());
    let answer = write(&table, &mut written);
    let same = answer == Answer::Done(file.len()) && written == file;
    case.compared(same, answer, || format!("{words:?}: {answer:?} {}", String::from_utf8_lossy(&written)));
    let short = case.random.bytes(file.len() - 1);
    let mut written = short.clone();
    let answer = write(&table, &mut written);
    let same = answer == Answer::refused(17, 0) && written == short;
    case.compared(same, answer, || format!("{words:?}, a byte short: {answer:?}"));
}

/// What each line must be read as is also told by the way in which the file was made.
#[test]
fn files_of_known_numbers() {
    let tally = run("files_of_known_numbers", 30_000, 120_000, |case| {
        let rule = case.random.chance(50);
        let (file, format) = (known_file(&mut case.random, rule), if rule { RULE } else { POOL });
        assert_eq!(format.words_of(&file.bytes), file.words, "{file:?}");
        note_lines(case, &file);
        let words = file.lines.len() * format.columns;
        for _ in 0..2 {
            let length = mostly_enough(&mut case.random, words, words);
            let output = case.random.words(length);
            if rule {
                calls::read_rule(case, &file.bytes, &output);
            } else {
                calls::read_pool(case, &file.bytes, &output);
            }
        }
        let files = if rule { [&file.bytes, POOL_FILE] } else { [RULE_FILE, &file.bytes] };
        calls::check_files(case, files[0], files[1]);
        let length = case.random.between(20, 80);
        let output = case.random.bytes(length);
        calls::report(case, files[0], files[1], &output);
    });
    tally.saw_each([0, 19], 30_000);
    tally.saw_each([17], 1_000);
    for what in [SIGN, NO_CONSTANT, LARGE, LARGE_CONSTANT, CUT] {
        tally.saw_noted(what, 300);
    }
}

fn note_lines(case: &mut Case, file: &KnownFile) {
    if file.bytes.ends_with(b"-") {
        return case.note(CUT);
    }
    // Those before the first fault, and the one that has it.
    let read = file.words.as_ref().map_or_else(|refusal| refusal.place - 1, |_| file.lines.len());
    for lines in file.lines[..read].windows(2) {
        let (before, line) = (&lines[0], &lines[1]);
        let last = line.text.trim_end().rsplit(' ').next().expect("a number");
        let (has_sign, is_large) = (last.starts_with('-'), last > "2147483647" && last.len() == 10);
        let (constant, behind) = (line.is_signed && !before.is_signed, !line.is_signed && before.is_signed);
        let is_good = line.words.is_some();
        case.note_met([
            (constant && has_sign && is_good, SIGN),
            (behind && has_sign && !is_good, NO_CONSTANT),
            (behind && is_large && is_good, LARGE),
            (constant && is_large && !is_good, LARGE_CONSTANT),
        ]);
    }
}

/// Verdicts and parts of sets, and plans; every second plan has a step that is refused.
#[test]
fn sets_and_plans() {
    let limit = PlanLimit { rows: 24, steps: 8, cost: 4_000 };
    let tally = run("sets_and_plans_on_signs", 8_000, 23_000, |case| {
        let mut plan = plan(&mut case.random, limit);
        case.note_met([
            (other_trial(&plan), OTHER_TRIAL),
            (other_verdicts(&plan.set, &plan.pool), OTHER_VERDICTS),
        ]);
        if case.random.chance(50) {
            plan = damaged_plan(&mut case.random, &plan);
        }
        let room = any_room(&mut case.random, &plan);
        let _ = calls::try_plan(case, &plan, room);
        let length = mostly_enough(&mut case.random, plan.set.counts.len() + 1, plan.set.counts.len());
        let output = case.random.bytes(length);
        calls::set_verdicts(case, &plan.set, &plan.pool, &output);
        // Readings may take far longer than verdicts.
        if set_cost(&plan.set, &plan.pool) <= 100 * limit.cost {
            let devices = devices_of(&plan.pool);
            let device = if devices.is_empty() { &[] } else { case.random.pick(&devices) };
            let output = case.random.words(device.len());
            calls::set_part(case, &plan.set, device, 3, &output);
        }
    });
    tally.saw_each([0], 15_000);
    tally.saw_each([23, 24, 25, 9, 10, 11, 26, 12, 17], 100);
    tally.saw_noted(OTHER_TRIAL, 1_500);
    tally.saw_noted(OTHER_VERDICTS, 1_000);
}

/// Case (i): words on both sides of the limit are accepted; in a file those above it have a sign.
#[test]
fn the_largest_and_the_least_value() {
    let file = |value: &str| format!("{}1 1 0 0 1 {value}\n", POOL.first_line).into_bytes();
    for (word, value, verdict) in
        [(MOST_VALUE, "2147483647", 0), (LEAST_VALUE, "-2147483648", 1), (u32::MAX, "-1", 0)]
    {
        assert_eq!(ffi::check_table(&[1, 1, 0, 0, 1, word]), Answer::Done(1), "{value}");
        assert_eq!(ffi::check_rule(&[6, 1, 0, 1, 7, 0, 1, word]), Answer::Done(2), "{value}");
        assert_eq!(ffi::check_files(RULE_FILE, &file(value)), verdict, "{value}");
        let as_word = if word == MOST_VALUE { 0 } else { 119 };
        assert_eq!(ffi::check_files(RULE_FILE, &file(&word.to_string())), as_word, "{word}");
    }
}
