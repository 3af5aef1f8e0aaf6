//! The archive's order: what it costs, and how well it compresses beside the rows' order.

use std::io::Write;
use std::process::{Command, Stdio};

use gabzeril_tests::answer::Answer;
use gabzeril_tests::checker::{POOL, ROW_WORDS};
use gabzeril_tests::ffi;
use gabzeril_tests::random::Random;

use crate::any_name;
use crate::calls::Call;
use crate::cases::{case, label, Case, BELOW_ZERO, ONE_DEVICE, PATH, THREE_ROWS};
use crate::inputs::{devices, one_device, path, values_below_zero};
use crate::instructions::{shown, Counts};
use crate::sent;

const ANY_WORDS: &str = "any words";
/// The most instructions that are asked for a word.
const MOST: u64 = 15;

const COSTED: [(&str, u32); 4] =
    [(THREE_ROWS, 64), (THREE_ROWS, 1_020), (ONE_DEVICE, 1_021), (ANY_WORDS, 1_020)];

fn costed(on: &str, rows: u32) -> Vec<u32> {
    match on {
        THREE_ROWS => devices(rows, 1),
        ONE_DEVICE => one_device(rows),
        _ => any_words(rows),
    }
}

fn any_words(rows: u32) -> Vec<u32> {
    let mut random = Random::new(1);
    (0..rows as usize * ROW_WORDS).map(|_| random.draw() as u32).collect()
}

pub fn add_cases(cases: &mut Vec<Case>) {
    for (on, rows) in COSTED {
        let table = costed(on, rows);
        let columns = in_columns(&table);
        cases.push(case(Call::ToColumns { table }, on, rows));
        cases.push(case(Call::FromColumns { columns }, on, rows));
    }
}

pub fn print_asked(counts: &Counts) {
    for (on, rows) in COSTED {
        for call in ["to_columns", "from_columns"] {
            let words = u64::from(rows) * ROW_WORDS as u64;
            let count = counts.of(&label(call, on, rows));
            let each = count.map_or("".into(), |count| {
                format!("{}, {:.1} a word", shown(Some(count)), count as f64 / words as f64)
            });
            let met = count.map_or("", |count| if count <= MOST * words { "yes" } else { "no" });
            println!("| {call} | {on} | {rows} | {MOST} a word | | {each} | {met} |");
        }
    }
}

fn in_columns(table: &[u32]) -> Vec<u32> {
    let mut columns = vec![0; table.len()];
    assert_eq!(ffi::to_columns(table, &mut columns), Answer::Done(table.len()));
    columns
}

/// The benchmark's pools; the last is one that nothing compresses.
fn pools() -> Vec<(String, Vec<u32>)> {
    let mut pools = vec![
        (THREE_ROWS.into(), devices(1_020, 1)),
        (BELOW_ZERO.into(), values_below_zero(1_020)),
        ("ten names under an interface".into(), any_name::blocks(1_020, true)),
        (ONE_DEVICE.into(), one_device(1_021)),
        (PATH.into(), path(1_024)),
    ];
    pools.extend(sent::dumps());
    pools.push((ANY_WORDS.into(), any_words(1_020)));
    pools
}

/// What compresses a stream of bytes, and how it is asked to.
const TOOLS: [(&str, &[&str]); 3] = [("gzip", &["-9"]), ("zstd", &["-19"]), ("xz", &["-9"])];

pub fn print() {
    println!("## The archive's order, compressed\n");
    let tools: Vec<_> = TOOLS.into_iter().filter(|(tool, _)| compressed(tool, &[], b"").is_some()).collect();
    println!("Bytes of the pool file's text, and of the words as four bytes each, low byte first: row after row, or in the archive's order.\n");
    print!("| pool | rows | file | words |");
    for (tool, options) in &tools {
        print!(" {tool} {}: file | rows | archive | archive / rows |", options.join(" "));
    }
    println!("\n|-|-:|-:|-:|{}", "-:|-:|-:|-:|".repeat(tools.len()));
    for (name, table) in pools() {
        print_line(&tools, &name, &table);
    }
}

fn print_line(tools: &[(&str, &[&str])], name: &str, table: &[u32]) {
    let (file, rows, columns) = (POOL.text_of(table), bytes_of(table), bytes_of(&in_columns(table)));
    let mut line = format!("| {name} | {} | {} | {} |", table.len() / ROW_WORDS, file.len(), rows.len());
    for (tool, options) in tools {
        let of = |bytes: &[u8]| compressed(tool, options, bytes).expect("the tool is there");
        let (file, rows, columns) = (of(&file), of(&rows), of(&columns));
        line += &format!(" {file} | {rows} | {columns} | {:.2} |", columns as f64 / rows as f64);
    }
    println!("{line}");
}

fn bytes_of(words: &[u32]) -> Vec<u8> {
    words.iter().flat_map(|word| word.to_le_bytes()).collect()
}

/// The length of what the tool makes of the bytes; none if the tool is not there.
fn compressed(tool: &str, options: &[&str], bytes: &[u8]) -> Option<usize> {
    let mut command = Command::new(tool);
    command.args(options).arg("-c").stdin(Stdio::piped()).stdout(Stdio::piped()).stderr(Stdio::null());
    let mut child = command.spawn().ok()?;
    let mut input = child.stdin.take().expect("it is piped");
    let given = bytes.to_vec();
    let writer = std::thread::spawn(move || input.write_all(&given));
    let output = child.wait_with_output().expect("it ends");
    writer.join().expect("it ends").expect("all is read");
    output.status.success().then_some(output.stdout.len())
}
