//! The benchmark. `bench/run.sh` runs it; each command prints Markdown.
//!
//! - `instructions`: makes each call once, for callgrind; prints the labels of the cases in order. `instructions
//!   pairs TEXT..` makes only those of rules that compare rows with rows, and of these the ones whose label has
//!   one of the texts, if there are any; `instructions fold` makes only those of folding.
//! - `asked COUNTS BEFORE`: the figures asked for. Both are files with the instructions of each case.
//! - `pairs COUNTS BEFORE`: those of the rules that compare rows with rows, which `asked` has, too.
//! - `fold COUNTS`: those of folding, which `asked` has, too.
//! - `times COUNTS BEFORE`: times the library and the Rust checker.
//! - `sqlite`: the library and SQLite on rules A and B.
//! - `stack`: the stack that each call takes on the largest inputs.
//! - `sent`: the rows sent for the formulas of document 004, and for a rule book.
//! - `archive`: how well the archive's order compresses.

mod any_name;
mod archive;
mod asked;
mod book;
mod calls;
mod cases;
mod clock;
mod fold;
mod inputs;
mod instructions;
mod loops;
mod pair_inputs;
mod pairs;
mod sent;
mod sqlite;
mod stack;
mod templates;
mod times;
mod trial;

use instructions::Counts;

fn main() {
    let arguments: Vec<String> = std::env::args().skip(1).collect();
    let words: Vec<&str> = arguments.iter().map(String::as_str).collect();
    match words[..] {
        ["instructions"] => instructions::make_each_call(&cases::all()),
        ["instructions", "pairs", ref texts @ ..] => {
            instructions::make_each_call(&pairs::cases_with(texts));
        }
        ["instructions", "fold"] => instructions::make_each_call(&fold::cases()),
        ["asked", counts, before] => asked::print(&Counts::read(counts), &Counts::read(before)),
        ["pairs", counts, before] => pairs::print(&Counts::read(counts), &Counts::read(before)),
        ["fold", counts] => fold::print(&Counts::read(counts)),
        ["times", counts, before] => times::print(&Counts::read(counts), &Counts::read(before)),
        ["sqlite"] => sqlite::print(),
        ["stack"] => stack::print(),
        ["sent"] => {
            sent::print();
            println!();
            book::print();
        }
        ["archive"] => archive::print(),
        _ => {
            eprintln!("usage: gabzeril-bench instructions [pairs TEXT.. | fold] | asked COUNTS BEFORE | pairs COUNTS BEFORE | fold COUNTS | times COUNTS BEFORE | sqlite | stack | sent | archive");
            std::process::exit(2);
        }
    }
}
