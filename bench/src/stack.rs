//! The stack that each call takes: the memory below the caller is filled, and what the call changed of it is
//! looked up afterwards.

use std::hint::black_box;

use gabzeril_tests::checker::{MOST_ROWS, POOL, ROW_WORDS, RULE};
use gabzeril_tests::{ffi, largest};

use crate::fold;

const FILL: u8 = 0xa5;
/// How far below the caller is filled.
const DEPTH: usize = 512 * 1_024;
/// The frames of this module's own functions, which are not filled.
const OWN: usize = 2_048;

pub fn print() {
    println!("## Stack\n");
    println!("The most bytes of stack that a call takes on the largest accepted inputs; less than {OWN} is not told apart.\n");
    println!("| call | bytes |");
    println!("|-|-:|");
    let builder = std::thread::Builder::new().stack_size(2 * DEPTH + 1_048_576);
    let thread = builder.spawn(measure_all).expect("a thread");
    for (name, bytes) in thread.join().expect("the calls return") {
        println!("| {name} | {bytes} |");
    }
}

fn measure_all() -> Vec<(&'static str, usize)> {
    let mut tables = largest::tables();
    tables.extend([largest::table_of_two(), largest::table_of_ends(), largest::longest_pool()]);
    let mut most = Most { calls: vec![], words: vec![0; MOST_ROWS * ROW_WORDS], bytes: vec![0; 65_536] };
    most.of_tables(&tables);
    most.of_rules(&tables);
    most.of_sets(&tables);
    most.of_templates();
    most.of_folding(&tables);
    most.calls
}

/// The most that each call took, and its outputs.
struct Most {
    calls: Vec<(&'static str, usize)>,
    words: Vec<u32>,
    bytes: Vec<u8>,
}

impl Most {
    fn note<T>(&mut self, name: &'static str, call: impl FnOnce(&mut [u32], &mut [u8]) -> T) {
        let used = stack_of(|| call(&mut self.words, &mut self.bytes));
        match self.calls.iter_mut().find(|(known, _)| *known == name) {
            Some((_, known)) => *known = used.max(*known),
            None => self.calls.push((name, used)),
        }
    }

    fn of_tables(&mut self, tables: &[Vec<u32>]) {
        for table in tables {
            self.note("check_table", |_, _| ffi::check_table(table));
            self.note("device_rows", |_, _| ffi::device_rows(table, 1));
            self.note("join", |words, _| ffi::join(words, 0, table));
            self.note("to_columns", |words, _| ffi::to_columns(table, words));
            self.note("from_columns", |words, _| ffi::from_columns(table, words));
            let file = POOL.text_of(table);
            self.note("read_pool", |words, _| ffi::read_pool(&file, words));
            self.note("write_pool", |_, bytes| ffi::write_pool(table, bytes));
        }
    }

    fn of_rules(&mut self, tables: &[Vec<u32>]) {
        for rule in &largest::rules() {
            self.note("check_rule", |_, _| ffi::check_rule(rule));
            let rule_file = RULE.text_of(rule);
            for table in tables {
                self.note("verdict", |_, _| ffi::verdict(rule, table));
                self.note("marks", |_, bytes| ffi::marks(rule, table, bytes));
                let pool_file = POOL.text_of(table);
                self.note("check_files", |_, _| ffi::check_files(&rule_file, &pool_file));
            }
            for table in tables {
                let pool_file = POOL.text_of(table);
                for (mode, name) in [(1, "part, mode 1"), (2, "part, mode 2"), (3, "part, mode 3")] {
                    self.note(name, |words, _| ffi::part(rule, table, mode, words));
                }
                self.note("report", |_, bytes| ffi::report(&rule_file, &pool_file, bytes));
            }
        }
    }

    fn of_templates(&mut self) {
        for filling in &largest::fillings() {
            self.note("fill", |words, _| ffi::fill(&filling.template, &filling.parameters, words));
        }
    }

    fn of_folding(&mut self, tables: &[Vec<u32>]) {
        for table in tables.iter().chain(&fold::tables()) {
            self.note("fold", |words, _| ffi::fold(table, words));
        }
    }

    fn of_sets(&mut self, tables: &[Vec<u32>]) {
        for set in &largest::sets() {
            let (rules, counts) = (&set.rules, &set.counts);
            self.note("check_set", |_, _| ffi::check_set(rules, counts));
            for table in tables {
                self.note("set_verdicts", |_, bytes| ffi::set_verdicts(rules, counts, table, bytes));
                for (mode, name) in
                    [(1, "set_part, mode 1"), (2, "set_part, mode 2"), (3, "set_part, mode 3")]
                {
                    self.note(name, |words, _| ffi::set_part(rules, counts, table, mode, words));
                }
                for steps in [vec![largest::steps(table, 18)], largest::refused_steps(table)].concat() {
                    self.note("try", |words, bytes| {
                        ffi::try_plan(rules, counts, table, &steps, words, bytes)
                    });
                }
            }
        }
    }
}

/// The bytes below this function that a call changes.
#[inline(never)]
fn stack_of<T>(call: impl FnOnce() -> T) -> usize {
    let here = 0u8;
    let top = black_box(&here) as *const u8 as usize - OWN;
    fill(top);
    black_box(call());
    top - lowest_changed(top) + OWN
}

// SAFETY of both: the thread's stack reaches further down than DEPTH, and nothing lives below the frames of
// this module while they run.

#[inline(never)]
fn fill(top: usize) {
    for place in (top - DEPTH)..top {
        unsafe { (place as *mut u8).write_volatile(FILL) };
    }
}

#[inline(never)]
fn lowest_changed(top: usize) -> usize {
    let changed = |place: &usize| unsafe { (*place as *const u8).read_volatile() } != FILL;
    ((top - DEPTH)..top).find(changed).unwrap_or(top)
}
