//! Each call on the largest accepted inputs, in a thread with 128 KiB of stack. Buffers are on the heap.

#[cfg(any(
    feature = "lower",
    feature = "engine",
    feature = "parts",
    feature = "files_entry",
    feature = "sets",
    feature = "trial",
    feature = "templates",
    feature = "archive",
    feature = "fold"
))]
use gabzeril_tests::{checker, ffi, largest};

/// Runs a call in a small thread.
#[allow(dead_code)]
fn on_a_small_stack<T: Send>(call: impl FnOnce() -> T + Send) -> T {
    const BYTES: usize = 128 * 1_024;
    std::thread::scope(|scope| {
        let thread = std::thread::Builder::new().stack_size(BYTES);
        thread.spawn_scoped(scope, call).expect("a thread").join().expect("the call returns")
    })
}

#[cfg(feature = "lower")]
#[test]
fn checks() {
    for rule in largest::rules() {
        assert_eq!(on_a_small_stack(|| ffi::check_rule(&rule)), checker::check_rule(&rule));
    }
    for table in largest::tables() {
        assert_eq!(on_a_small_stack(|| ffi::check_table(&table)), checker::check_table(&table));
        assert_eq!(on_a_small_stack(|| ffi::device_rows(&table, 1)), checker::device_rows(&table, 1));
    }
}

#[cfg(feature = "lower")]
#[test]
fn joining() {
    for table in largest::tables() {
        for first in [0, 1, checker::MOST_ROWS / 2, checker::MOST_ROWS] {
            let used = first * checker::ROW_WORDS;
            let mut rows = checker::rows_of(&table[used..]);
            // The rows behind become another device, each under the row before.
            for (deep, row) in (0..).zip(&mut rows) {
                (row.device, row.deep) = (2, deep);
                row.up = if deep == 0 { 0 } else { row.at - 1 };
            }
            let second = checker::words_of(&rows);
            let mut expected = table.clone();
            let answer = checker::join(&mut expected, used, &second);
            let mut pool = table.clone();
            assert_eq!(on_a_small_stack(|| ffi::join(&mut pool, used, &second)), answer);
            assert_eq!(pool, expected);
        }
    }
}

#[cfg(feature = "lower")]
#[test]
fn files() {
    let table = largest::longest_pool();
    let text = checker::POOL.text_of(&table);
    let mut file = vec![0; text.len()];
    let answer = on_a_small_stack(|| ffi::write_pool(&table, &mut file));
    assert_eq!((answer, &file), (checker::write_pool(&table, &mut vec![0; text.len()]), &text));
    let mut words = vec![0; table.len()];
    let answer = on_a_small_stack(|| ffi::read_pool(&text, &mut words));
    assert_eq!((answer, &words), (checker::read_pool(&text, &mut vec![0; table.len()]), &table));
    for rule in largest::rules().into_iter().chain([largest::longest_rule()]) {
        let text = checker::RULE.text_of(&rule);
        let mut file = vec![0; text.len()];
        let answer = on_a_small_stack(|| ffi::write_rule(&rule, &mut file));
        assert_eq!((answer, &file), (checker::write_rule(&rule, &mut vec![0; text.len()]), &text));
        let mut words = vec![0; rule.len()];
        let answer = on_a_small_stack(|| ffi::read_rule(&text, &mut words));
        assert_eq!((answer, &words), (checker::read_rule(&text, &mut vec![0; rule.len()]), &rule));
    }
}

#[cfg(feature = "engine")]
#[test]
fn verdict_and_marks() {
    for rule in largest::rules() {
        for table in largest::tables().into_iter().chain([largest::table_of_two(), largest::table_of_ends()])
        {
            let verdict = on_a_small_stack(|| ffi::verdict(&rule, &table));
            assert_eq!(verdict, checker::verdict(&rule, &table), "{rule:?}");
            let mut expected = vec![7; table.len() / checker::ROW_WORDS];
            let answer = checker::marks(&rule, &table, &mut expected);
            let mut marks = vec![7; table.len() / checker::ROW_WORDS];
            assert_eq!(on_a_small_stack(|| ffi::marks(&rule, &table, &mut marks)), answer, "{rule:?}");
            assert_eq!(marks, expected, "{rule:?}");
        }
    }
}

#[cfg(feature = "parts")]
#[test]
fn parts() {
    for rule in largest::rules() {
        for table in largest::tables().into_iter().chain([largest::table_of_ends()]) {
            for mode in 1..=3 {
                let mut expected = vec![7; table.len()];
                let answer = checker::part(&rule, &table, mode, &mut expected);
                let mut part = vec![7; table.len()];
                let found = on_a_small_stack(|| ffi::part(&rule, &table, mode, &mut part));
                assert_eq!((found, part), (answer, expected), "{rule:?} {mode}");
            }
        }
    }
}

#[cfg(feature = "files_entry")]
#[test]
fn entry() {
    for rule in largest::rules() {
        for table in largest::tables().into_iter().chain([largest::table_of_ends(), largest::longest_pool()])
        {
            let (rule, pool) = (checker::RULE.text_of(&rule), checker::POOL.text_of(&table));
            let verdict = on_a_small_stack(|| ffi::check_files(&rule, &pool));
            assert_eq!(verdict, checker::check_files(&rule, &pool));
            let (mut text, mut expected) = (vec![7; 80], vec![7; 80]);
            let bytes = on_a_small_stack(|| ffi::report(&rule, &pool, &mut text));
            assert_eq!(bytes, checker::report(&rule, &pool, &mut expected));
            assert_eq!(text, expected);
        }
    }
}

#[cfg(feature = "sets")]
#[test]
fn sets() {
    for set in largest::sets() {
        let (rules, counts) = (&set.rules, &set.counts);
        assert_eq!(on_a_small_stack(|| ffi::check_set(rules, counts)), checker::check_set(rules, counts));
        for table in largest::tables().into_iter().chain([largest::table_of_two(), largest::table_of_ends()])
        {
            let (mut expected, mut verdicts) = ([7; 33], [7; 33]);
            let answer = checker::set_verdicts(rules, counts, &table, &mut expected);
            let found = on_a_small_stack(|| ffi::set_verdicts(rules, counts, &table, &mut verdicts));
            assert_eq!((found, verdicts), (answer, expected), "{set:?}");
            for mode in 1..=3 {
                let (mut expected, mut part) = (vec![7; table.len()], vec![7; table.len()]);
                let answer = checker::set_part(rules, counts, &table, mode, &mut expected);
                let found = on_a_small_stack(|| ffi::set_part(rules, counts, &table, mode, &mut part));
                assert_eq!((found, part), (answer, expected), "{set:?} {mode}");
            }
        }
    }
}

#[cfg(feature = "trial")]
#[test]
fn trials() {
    let mut plans = 0;
    for set in largest::sets() {
        for table in largest::tables().into_iter().chain([largest::table_of_two(), largest::table_of_ends()])
        {
            // Many steps once, since each has the verdicts of all rules.
            let count = if plans == 0 { 200 } else { 9 };
            for steps in [vec![largest::steps(&table, count)], largest::refused_steps(&table)].concat() {
                try_on_a_small_stack(&set, &table, &steps);
                plans += 1;
            }
        }
    }
}

#[cfg(feature = "trial")]
fn try_on_a_small_stack(set: &gabzeril_tests::generate::Set, pool: &[u32], steps: &[u32]) {
    let (rules, counts) = (&set.rules, &set.counts);
    let bytes = (steps.len() / checker::STEP_WORDS + 1) * counts.len();
    let (mut expected, mut expected_verdicts) = (vec![7; pool.len()], vec![7; bytes]);
    let answer = checker::try_plan(rules, counts, pool, steps, &mut expected, &mut expected_verdicts);
    let (mut table, mut verdicts) = (vec![7; pool.len()], vec![7; bytes]);
    let found = on_a_small_stack(|| ffi::try_plan(rules, counts, pool, steps, &mut table, &mut verdicts));
    assert_eq!((found, verdicts), (answer, expected_verdicts), "{set:?} {steps:?}");
    // What lies behind the working table may be any.
    let words = answer.rows * checker::ROW_WORDS;
    assert_eq!(table[..words], expected[..words], "{steps:?}");
}

/// Filled, with a number that has no parameter, and with one parameter more than may be or is used.
#[cfg(feature = "templates")]
#[test]
fn fillings() {
    for filling in largest::fillings() {
        let (template, parameters) = (&filling.template, &filling.parameters);
        let more = [&parameters[..], &[7]].concat();
        for (parameters, number) in [(&parameters[..], 0), (&parameters[1..], 21), (&more, 22)] {
            let mut expected = vec![7; template.len()];
            let answer = checker::fill(template, parameters, &mut expected);
            assert_eq!(answer.number(), number, "{filling:?}");
            let mut rule = vec![7; template.len()];
            let found = on_a_small_stack(|| ffi::fill(template, parameters, &mut rule));
            assert_eq!((found, rule), (answer, expected), "{filling:?}");
        }
    }
}

/// Reordered, with a word too few, and with a word of room too few.
#[cfg(feature = "archive")]
#[test]
fn archive() {
    use gabzeril_tests::compare::calls::Reorder;
    let calls: [(Reorder, Reorder); 2] =
        [(ffi::to_columns, checker::to_columns), (ffi::from_columns, checker::from_columns)];
    for run in largest::tables().into_iter().chain([largest::longest_pool(), largest::long_run()]) {
        for (call, model) in calls {
            for (words, room, number) in
                [(&run[..], run.len(), 0), (&run[1..], run.len(), 28), (&run, run.len() - 1, 17)]
            {
                let (mut expected, mut output) = (vec![7; room], vec![7; room]);
                let answer = model(words, &mut expected);
                assert_eq!(answer.number(), number);
                let found = on_a_small_stack(|| call(words, &mut output));
                assert!((found, output) == (answer, expected), "{found:?}, {} words", words.len());
            }
        }
    }
}

/// Folded, with a word of room too few, and with a word too few.
#[cfg(feature = "fold")]
#[test]
fn folding() {
    use gabzeril_tests::answer::Answer;
    let nothing = largest::tables().into_iter().chain([largest::longest_pool()]);
    let tables = nothing.map(|table| (table, checker::MOST_ROWS)).chain(largest::tables_to_fold());
    for (table, left) in tables {
        let room = left * checker::ROW_WORDS;
        let mut expected = vec![7; table.len()];
        assert_eq!(checker::fold(&table, &mut expected), Answer::Done(left));
        let mut folded = vec![7; table.len()];
        assert_eq!(on_a_small_stack(|| ffi::fold(&table, &mut folded)), Answer::Done(left));
        assert!(folded == expected, "{left} rows left");
        for (words, room, number) in [(&table[..], room - 1, 17), (&table[1..], room, 8)] {
            let mut folded = vec![7; room];
            assert_eq!(on_a_small_stack(|| ffi::fold(words, &mut folded)).number(), number);
            assert!(folded.iter().all(|&word| word == 7), "{number}");
        }
    }
}
