//! The library against the Rust checker, in the same run.

use std::hint::black_box;

use crate::calls::{Outputs, Side, CHECKER, LIBRARY};
use crate::cases::{self, Case};
use crate::clock::best_microseconds;
use crate::instructions::{shown, Counts};

pub fn print(counts: &Counts, before: &Counts) {
    println!("## All cases\n");
    println!("| call | on | rows | library µs | checker µs | library / checker | instructions before | instructions |");
    println!("|-|-|-:|-:|-:|-:|-:|-:|");
    for case in &cases::all() {
        let (name, on, rows) = (case.call.name(), &case.on, case.rows);
        let library = time(case, &LIBRARY);
        let [before, count] = [before, counts].map(|counts| shown(counts.of(&case.label())));
        let checker = if case.long { " | ".into() } else { beside_checker(case, library) };
        println!("| {name} | {on} | {rows} | {library:.2} | {checker} | {before} | {count} |");
    }
}

/// The checker's time and the ratio, once both sides have answered the same.
fn beside_checker(case: &Case, library: f64) -> String {
    assert!(same_answer(case), "library and checker differ: {}", case.label());
    let checker = time(case, &CHECKER);
    format!("{checker:.2} | {:.4}", library / checker)
}

fn time(case: &Case, side: &Side) -> f64 {
    let mut outputs = Outputs::of(&case.call);
    best_microseconds(|| {
        black_box(case.call.make(side, &mut outputs));
    })
}

fn same_answer(case: &Case) -> bool {
    let (mut ours, mut theirs) = (Outputs::of(&case.call), Outputs::of(&case.call));
    let answers = [(&LIBRARY, &mut ours), (&CHECKER, &mut theirs)].map(|(side, outputs)| {
        let answer = case.call.make(side, outputs);
        outputs.clear_free(&case.call, answer);
        answer
    });
    answers[0] == answers[1] && ours == theirs
}
